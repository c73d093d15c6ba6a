/* Calls every function of the library as a careless caller would: null with length 0, no room, every length around each limit, records of
   random numbers, arguments that stand for nothing. What is lent lies between pages that can't be touched, or under valgrind in a block of
   its own, with marked bytes beside it; and of each answer everything is asked that holds of every call.

     bad_callers CALLS [SEED] [heap]

   Prints a line for each function: how often it was called, and which refusals it gave. Ends with 1 at the first answer that is wrong. */
#define _DEFAULT_SOURCE
#include <stdio.h>
#include <stdlib.h>
#include <string.h>
#include <sys/mman.h>
#include "vurdellow.h"

/* ---- chance */

static uint64_t state;

static uint64_t chance(void)
{
    state ^= state << 13;
    state ^= state >> 7;
    state ^= state << 17;
    return state * 2685821657736338717u;
}

static size_t below(size_t n)
{
    return (size_t)((chance() >> 33) % n);
}

/* ---- what is lent */

enum { SLOTS = 5, PAGE = 4096, PAGES = 4, MARK = 0xA5, BESIDE = 64 };

typedef struct slot {
    uint8_t *area;         /* PAGES pages between two that can't be touched */
    uint8_t *at;           /* what is lent */
    uint8_t *block;        /* .. in the heap */
    size_t bytes;
    uint8_t was[PAGES * PAGE];
} slot;

static slot slots[SLOTS];
static int in_heap;
static const char *name = "nothing";
static unsigned long call_number;

static void fail(const char *why)
{
    printf("bad_callers: %s: %s (call %lu)\n", name, why, call_number);
    exit(1);
}

static void ask(int holds, const char *why)
{
    if (!holds)
        fail(why);
}

static void make_areas(void)
{
    int i;
    for (i = 0; i < SLOTS; i++) {
        uint8_t *all = mmap(NULL, (PAGES + 2) * PAGE, PROT_NONE, MAP_PRIVATE | MAP_ANONYMOUS, -1, 0);
        ask(all != MAP_FAILED && mprotect(all + PAGE, PAGES * PAGE, PROT_READ | PROT_WRITE) == 0, "no memory");
        slots[i].area = all + PAGE;
    }
}

/* Lends so many bytes, at one end of the area or the other; of length 0 often null. What they hold is put there by the caller. */
static uint8_t *lend(int i, size_t bytes)
{
    slot *s = &slots[i];
    s->bytes = bytes;
    if (bytes == 0 && below(2) == 0)
        s->at = NULL;
    else if (in_heap) {
        free(s->block);
        s->at = s->block = malloc(bytes);
    } else if (below(2) == 0) {
        s->at = s->area;
        memset(s->at + bytes, MARK, BESIDE);
    } else {
        s->at = s->area + PAGES * PAGE - bytes;
        memset(s->at - BESIDE, MARK, BESIDE);
    }
    return s->at;
}

static void remember(int i)
{
    if (slots[i].bytes)
        memcpy(slots[i].was, slots[i].at, slots[i].bytes);
}

/* Whether all bytes from one on are as they were. */
static int unchanged_from(int i, size_t from)
{
    return from >= slots[i].bytes || memcmp(slots[i].at + from, slots[i].was + from, slots[i].bytes - from) == 0;
}

static void marks_stand(int i)
{
    slot *s = &slots[i];
    const uint8_t *beside;
    size_t k;
    if (in_heap || s->at == NULL)
        return;
    beside = s->at == s->area ? s->at + s->bytes : s->at - BESIDE;
    for (k = 0; k < BESIDE; k++)
        ask(beside[k] == MARK, "a byte beside what was lent has changed");
}

/* ---- contents */

/* Bytes that devices send, so that exchanges get on, and any other. */
static void put_script(int i)
{
    static const uint8_t likely[] = {0x00, 0x01, 0x00, 0x01, 0xFA, 0xFA, 0x21, 0xAA, 0x55, 0x03, 0x04, 0xAB, 0x83, 0x41, 0xFE, 0xFC, 0x1E, 0x9E, 0x3A, 0xE0, 0xF0, 0x2A};
    size_t k, mode = below(4);
    for (k = 0; k < slots[i].bytes; k++)
        slots[i].at[k] = mode == 0 || below(16) == 0 ? (uint8_t)chance() : mode == 1 ? (uint8_t)"\0\1\372"[k % 3] : likely[below(sizeof likely)];
    remember(i);
}

static void put_bytes(int i)
{
    size_t k;
    for (k = 0; k < slots[i].bytes; k++)
        slots[i].at[k] = (uint8_t)chance();
    remember(i);
}

/* A number around a limit, a small one, or any. */
static uint64_t number(void)
{
    static const uint64_t limits[] = {0, 1, 2, 3, 15, 16, 17, 31, 32, 95, 96, 97, 127, 128, 129, 255, 256, 2047, 2048, 65535, 65536, 0xFFFFFFFF, 0x100000000, UINT64_MAX};
    switch (below(3)) {
    case 0: return limits[below(sizeof limits / sizeof *limits)];
    case 1: return below(300);
    default: return chance();
    }
}

/* How many numbers are lent as a record: the sweep's length, or mostly the right one. */
static size_t swept = SIZE_MAX;

static size_t words_of(size_t whole)
{
    return swept != SIZE_MAX ? swept : below(8) ? whole : below(160);
}

/* Records that go on from call to call: a handler's and a dispatcher's. */
static uint64_t going[2][VD_DISPATCHER_WORDS];
static int is_going;

static uint64_t *going_on(size_t whole)
{
    return going[whole == VD_DISPATCHER_WORDS];
}

/* A record: fresh, one that was used for long, the same with a number changed, often in one of its 64 bits, or random numbers all through. */
static uint64_t *put_words(int i, size_t length, size_t whole)
{
    uint64_t *words = (uint64_t *)lend(i, 8 * length), *kept = going_on(whole);
    size_t k, mode = below(8);
    is_going = mode > 1 && length == whole;
    if (kept[10] == 0 || below(2000) == 0) {
        memset(kept, 0, sizeof going[0]);
        if (whole == VD_HANDLER_WORDS)
            vd_handler_fresh((vd_handler *)kept, whole, 1 + (uint32_t)below(2), (uint32_t)below(2));
        else
            vd_dispatcher_fresh((vd_dispatcher *)kept, whole, 1 + (uint32_t)below(2), (uint32_t)below(2), below(2) ? 3 : 0);
    }
    for (k = 0; k < length; k++)
        words[k] = mode == 0 ? number() : k < whole ? kept[k] : chance();
    if (mode == 1 && length) {
        k = below(4) ? below(length) : below(length < 16 ? length : 16);
        words[k] = below(2) ? number() : words[k] ^ (uint64_t)1 << below(64);
    }
    remember(i);
    return words;
}

/* Whether 144 numbers are such as no record that is well formed has: of a side at the table a prefix but 0 and 1, a flag above bit 10, more
   than 16 bytes that wait; other than one keyboard or two, and with two more than 96 events of a side; another profile, start or count. */
static int is_malformed(const uint64_t *words)
{
    uint64_t side, k, second = 0;
    if ((words[10] != 1 && words[10] != 2) || words[11] > 1 || words[12] > 127 || words[13] > 128)
        return 1;
    for (side = 0; side < words[10]; side++)
        if (words[5 * side] > 1 || words[5 * side + 1] > 0x7FF || words[5 * side + 2] > 16)
            return 1;
    for (k = 0; k < words[13]; k++)
        second += words[14 + k / 64] >> k % 64 & 1;
    return words[10] == 2 && (second > 96 || words[13] - second > 96);
}

/* The numbers of a slot as they were lent. */
static const uint64_t *lent(int i)
{
    return (const uint64_t *)(const void *)slots[i].was;
}

/* The record goes on from what a call left. */
static void go_on(int i, size_t whole)
{
    if (is_going)
        memcpy(going_on(whole), slots[i].at, 8 * whole);
}

/* ---- what is counted */

enum { FUNCTIONS = 48 };
static struct count { const char *name; unsigned long calls; unsigned char seen[256]; } counts[FUNCTIONS];

static void called(const char *of)
{
    name = of;
    call_number++;
}

static void answered(uint32_t refusal)
{
    int i;
    ask(refusal <= 33 || refusal == VD_INVALID_ARGUMENT, "there is no such refusal");
    for (i = 0; i < FUNCTIONS; i++) {
        if (counts[i].name == NULL)
            counts[i].name = name;
        if (counts[i].name == name) {
            counts[i].calls++;
            counts[i].seen[refusal] = 1;
            return;
        }
    }
    fail("there are more functions than were counted");
}

static int is_zero(const void *answer, size_t bytes)
{
    const uint8_t *b = answer;
    size_t k;
    for (k = 0; k < bytes; k++)
        if (b[k])
            return 0;
    return 1;
}

/* ---- operations on the ports: slot 0 is the script, slot 1 the log */

static uint8_t *script, *log_;
static size_t script_length, log_length;

static void lend_ports(size_t script_bytes, size_t log_bytes)
{
    script_length = script_bytes;
    log_length = log_bytes;
    script = lend(0, script_length);
    log_ = lend(1, log_length);
    put_script(0);
    put_bytes(1);
}

static void ports_asked(uint32_t refusal, uint32_t port, size_t used, size_t pairs)
{
    size_t k;
    answered(refusal);
    ask(refusal == VD_SCRIPT_ENDS ? port == VD_DATA_PORT || port == VD_STATUS_PORT : port == 0, "the port is named where the script ends, and only there");
    ask(used <= script_length && 2 * pairs <= log_length, "no more is used and written than there is");
    ask(refusal != VD_SCRIPT_ENDS || used == script_length, "a script that ends was used");
    ask(refusal != VD_LOG_FULL || log_length - 2 * pairs < 2, "a log that is full has not two free bytes");
    ask(unchanged_from(0, 0), "the script has changed");
    ask(unchanged_from(1, 2 * pairs), "the log has changed behind the pairs");
    for (k = 0; k < pairs; k++)
        ask(log_[2 * k] == VD_DATA_PORT || log_[2 * k] == VD_STATUS_PORT, "a pair begins with a port");
    marks_stand(0);
    marks_stand(1);
}

static void answer_asked(vd_answer a, int means)
{
    ports_asked(a.refusal, a.port, a.used, a.pairs);
    ask((a.refusal == VD_INVALID_ARGUMENT) == !means, "255 is answered where an argument is invalid, and only there");
    ask(means || (a.value == 0 && a.used == 0 && a.pairs == 0), "beside 255 all is 0");
}

static void kept_asked(vd_kept a, int means)
{
    static const uint8_t none[VD_KEPT_BYTES];
    ports_asked(a.refusal, a.port, a.used, a.pairs);
    ask((a.refusal == VD_INVALID_ARGUMENT) == !means, "255 is answered where an argument is invalid, and only there");
    ask(a.count <= VD_KEPT_BYTES && (a.others == 0 || a.count == VD_KEPT_BYTES), "others are those behind 16");
    ask(memcmp(a.bytes + a.count, none, VD_KEPT_BYTES - a.count) == 0, "0 stands behind the kept bytes");
    ask((a.refusal != VD_SCRIPT_ENDS && a.refusal != VD_LOG_FULL && means) || (a.count == 0 && a.others == 0), "a lack keeps nothing");
}

static int is_identity(uint64_t n)
{
    return n == 0 || n == 3 || n == 4;
}

static int is_rate(uint32_t n)
{
    return n == 10 || n == 20 || n == 40 || n == 60 || n == 80 || n == 100 || n == 200;
}

static int is_keyboard_command(uint32_t n)
{
    return n == 0xED || n == 0xF0 || (0xF2 <= n && n <= 0xF5) || n == 0xFE || n == 0xFF;
}

static int is_mouse_command(uint32_t n)
{
    return n == 0xE6 || (0xE8 <= n && n <= 0xEC) || n == 0xEE || n == 0xF0 || (0xF2 <= n && n <= 0xF6) || n == 0xFE || n == 0xFF;
}

static int is_keycode(uint32_t n)
{
    return n <= 0x5D || n == 0x9D || n == 0xAA || n == 0xB6 || n == 0xB8 || n == 0xDB || n == 0xDC;
}

static void packet_asked(vd_packet p)
{
    ask(p.buttons < 32 && -256 <= p.x && p.x <= 255 && -256 <= p.y && p.y <= 255 && -128 <= p.wheel && p.wheel <= 127, "a packet's numbers are in range");
    ask(p.refusal == 0 || (p.buttons == 0 && p.x == 0 && p.y == 0 && p.wheel == 0), "a refused packet is 0");
}

static void handled_asked(vd_handled a)
{
    ask(a.lamps == 0 || a.lamps == VD_LEDS_NOT_SET, "the lamps' number is 0 or 14");
    ask((a.refusal != 2 && a.refusal != 3 && a.refusal != 21 && a.refusal != 255) || (a.dropped == 0 && a.lamps == 0), "a lack drops nothing");
}

enum { PORT_OPERATIONS = 24 };
typedef vd_answer (*plain_operation)(const uint8_t *, size_t, uint8_t *, size_t);
typedef vd_answer (*told_operation)(uint32_t, const uint8_t *, size_t, uint8_t *, size_t);
typedef vd_kept (*kept_operation)(uint32_t, const uint8_t *, size_t, uint8_t *, size_t);
typedef vd_answer (*reading)(const uint8_t *, size_t);
static const struct { const char *name; plain_operation of; } plain_operations[] = {
    {"vd_keyboard_reset", vd_keyboard_reset}, {"vd_keyboard_get_scancode_set", vd_keyboard_get_scancode_set}, {"vd_keyboard_detect", vd_keyboard_detect},
    {"vd_mouse_reset", vd_mouse_reset}, {"vd_mouse_start_packets", vd_mouse_start_packets}, {"vd_mouse_stop_packets", vd_mouse_stop_packets},
    {"vd_mouse_get_identity", vd_mouse_get_identity},
};
static const struct { const char *name; told_operation of; } told_operations[] = {
    {"vd_keyboard_set_scancode_set", vd_keyboard_set_scancode_set}, {"vd_keyboard_set_repeat", vd_keyboard_set_repeat}, {"vd_mouse_set_identity", vd_mouse_set_identity},
    {"vd_mouse_set_sampling_rate", vd_mouse_set_sampling_rate}, {"vd_mouse_set_resolution", vd_mouse_set_resolution},
};
static const struct { const char *name; kept_operation of; } kept_operations[] = {
    {"vd_keyboard_command", vd_keyboard_command}, {"vd_keyboard_set_lamps", vd_keyboard_set_lamps}, {"vd_mouse_command", vd_mouse_command},
};
static const struct { const char *name; reading of; } readings[] = {
    {"vd_keyboard_waits", vd_keyboard_waits}, {"vd_keyboard_read_scancode", vd_keyboard_read_scancode}, {"vd_mouse_waits", vd_mouse_waits},
};

static void port_operation(int which, size_t script_bytes, size_t log_bytes)
{
    uint32_t n = below(3) ? (uint32_t)below(256) : (uint32_t)number();
    lend_ports(script_bytes, log_bytes);
    if (which < 7) {
        called(plain_operations[which].name);
        answer_asked(plain_operations[which].of(script, script_length, log_, log_length), 1);
    } else if (which < 12) {
        int i = which - 7, means;
        vd_answer a;
        if (i != 1 && below(2))
            n = (uint32_t)below(5);
        if (i == 3 && below(2))
            n = 10u << below(4);
        called(told_operations[i].name);
        a = told_operations[i].of(n, script, script_length, log_, log_length);
        means = i == 0 ? 1 <= n && n <= 3 : i == 1 ? n <= 255 : i == 2 ? is_identity(n) : i == 3 ? is_rate(n) : n <= 3;
        answer_asked(a, means);
        ask(i != 2 || !means || is_identity((uint32_t)a.value), "what is left is an identity");
    } else if (which < 15) {
        int i = which - 12;
        vd_kept a;
        n = below(2) ? n : i == 1 ? (uint32_t)below(9) : 0xE6 + (uint32_t)below(26);
        called(kept_operations[i].name);
        a = kept_operations[i].of(n, script, script_length, log_, log_length);
        kept_asked(a, i == 0 ? is_keyboard_command(n) : i == 1 ? n <= 7 : is_mouse_command(n));
    } else if (which < 18) {
        called(readings[which - 15].name);
        answer_asked(readings[which - 15].of(script, script_length), 1);
        ask(unchanged_from(1, 0), "a reading has no log");
    } else if (which == 18) {
        vd_packet p;
        n = below(4) ? 3 * (uint32_t)below(2) + (uint32_t)below(2) : n;
        called("vd_mouse_read_packet");
        p = vd_mouse_read_packet(n, script, script_length);
        ports_asked(p.refusal, p.port, p.used, 0);
        ask((p.refusal == VD_INVALID_ARGUMENT) == !is_identity(n), "255 is answered where there is no such identity, and only there");
        packet_asked(p);
    } else if (which == 19) {
        vd_controller c;
        vd_initialized a;
        c.initialized = below(4) ? 0 : (uint32_t)number();
        c.keyboard = (uint32_t)number();
        c.mouse = (uint32_t)number();
        called("vd_controller_init");
        a = vd_controller_init(c, script, script_length, log_, log_length);
        ports_asked(a.refusal, a.port, a.used, a.pairs);
        ask(a.refusal || (a.controller.initialized == 1 && a.controller.keyboard < 2 && a.controller.mouse < 2), "a record that was made is of 0 and 1");
        ask(!a.refusal || memcmp(&a.controller, &c, sizeof c) == 0, "a refusal gives the record back as it was");
    } else if (which == 20) {
        vd_preferences p;
        p.version = below(4) ? 1 + (uint32_t)below(2) : (uint32_t)number();
        p.set = below(8) ? 1 + (uint32_t)below(3) : (uint32_t)number();
        p.rate = below(8) ? 10u << below(3) : (uint32_t)number();
        p.resolution = below(8) ? (uint32_t)below(4) : (uint32_t)number();
        p.lamps = below(8) ? (uint32_t)below(8) : (uint32_t)number();
        p.repeat = below(8) ? (uint32_t)below(128) : (uint32_t)number();
        called("vd_preferences_apply");
        answer_asked(vd_preferences_apply(p, script, script_length, log_, log_length), p.version == 1 || p.version == 2);
    } else if (which == 21) {
        uint32_t keyboards = (uint32_t)below(4), profile = (uint32_t)below(3);
        size_t length = words_of(VD_HANDLER_WORDS);
        uint64_t *words = put_words(2, length, VD_HANDLER_WORDS);
        vd_answer a;
        called("vd_keyboard_init");
        a = vd_keyboard_init((vd_handler *)words, length, keyboards, profile, script, script_length, log_, log_length);
        answer_asked(a, (keyboards == 1 || keyboards == 2) && profile < 2);
        ask(a.refusal == 255 || (a.refusal == 21) == (length != VD_HANDLER_WORDS), "21 is answered to another length, and only there");
        ask((a.refusal != 2 && a.refusal != 3 && a.refusal != 21 && a.refusal != 255) || unchanged_from(2, 0), "2, 3, 21 and 255 leave the record");
        ask(a.refusal == 2 || a.refusal == 3 || a.refusal == 21 || a.refusal == 255 || (words[10] == keyboards && words[11] == profile && is_zero(words, 80) && is_zero(words + 12, 8 * (VD_HANDLER_WORDS - 12))), "after any other answer the record is a fresh one");
        marks_stand(2);
    } else if (which == 22) {
        uint32_t side = below(16) == 0 ? (uint32_t)number() : 1 + (below(8) ? call_number >> 14 & 1 : (uint32_t)below(2));
        size_t length = words_of(VD_HANDLER_WORDS);
        uint64_t *words = put_words(2, length, VD_HANDLER_WORDS);
        vd_handled a;
        called("vd_handle");
        a = vd_handle((vd_handler *)words, length, side, script, script_length, log_, log_length);
        ports_asked(a.refusal, a.port, a.used, a.pairs);
        handled_asked(a);
        ask((a.refusal == 255) == (side != 1 && side != 2), "255 is answered where there is no such side, and only there");
        ask(length == VD_HANDLER_WORDS || a.refusal == 21 || a.refusal == 255, "21 is answered to another length");
        ask(length != VD_HANDLER_WORDS || a.refusal == 255 || (a.refusal == 21) == (is_malformed(lent(2)) || side > lent(2)[10]), "21 is answered to a malformed record, and to a side that isn't at the table, and only there");
        ask((a.refusal != 2 && a.refusal != 3 && a.refusal != 21 && a.refusal != 255) || unchanged_from(2, 0), "2, 3, 21 and 255 leave the record");
        marks_stand(2);
        go_on(2, VD_HANDLER_WORDS);
    } else {
        size_t length = words_of(VD_DISPATCHER_WORDS), second_length = below(40), mouse_length = below(40), used;
        uint64_t *words = put_words(2, length, VD_DISPATCHER_WORDS);
        uint8_t *second = lend(3, second_length), *mouse = lend(4, mouse_length);
        int whole;
        vd_step a;
        put_script(3);
        put_script(4);
        called("vd_dispatcher_step");
        a = vd_dispatcher_step((vd_dispatcher *)words, length, script, script_length, second, second_length, mouse, mouse_length, log_, log_length);
        answered(a.refusal);
        used = a.call.used + a.packet.used;
        ask(a.source <= 3 && a.refusal != 255, "there is no such source");
        whole = length == VD_DISPATCHER_WORDS && is_identity(lent(2)[144]) && lent(2)[148] < 4;
        ask(whole ? a.source != 0 || a.refusal == 0 : a.source == 0 && a.refusal == 21, "21 is answered to numbers that no dispatcher has, and then no source is served");
        ask(a.source == 0 ? is_zero(&a.call, sizeof a.call) && is_zero(&a.packet, sizeof a.packet) && unchanged_from(2, 0) : length == VD_DISPATCHER_WORDS, "an idle step changes nothing");
        ask(a.source == 1 || a.source == 2 ? a.refusal == a.call.refusal && a.packet.refusal == 0 && a.packet.used == 0 : is_zero(&a.call.used, sizeof a.call.used), "a step makes one call");
        ask(a.source != 3 || a.refusal == a.packet.refusal, "a step makes one call");
        ask(used <= (a.source == 1 ? script_length : a.source == 2 ? second_length : mouse_length), "no more is used than there is");
        ask(unchanged_from(1, 2 * a.call.pairs) && unchanged_from(0, 0) && unchanged_from(3, 0) && unchanged_from(4, 0), "a script has changed, or the log behind the pairs");
        handled_asked(a.call);
        packet_asked(a.packet);
        marks_stand(0);
        marks_stand(1);
        marks_stand(2);
        marks_stand(3);
        marks_stand(4);
        go_on(2, VD_DISPATCHER_WORDS);
    }
}

/* ---- operations a byte at a time: slot 2 is the operation's numbers */

enum { OPERATIONS = 22 };

/* The operation that goes on from call to call: its numbers, and what it asked for last. */
static struct { uint64_t words[VD_STEP_WORDS]; vd_request wanted; int was_begun; } step;

/* Whether an operation has this argument. */
static int is_argument(uint32_t operation, uint64_t n)
{
    switch (operation) {
    case VD_CONTROLLER_INIT: return n <= 7;
    case VD_KEYBOARD_COMMAND: return n <= 255 && is_keyboard_command((uint32_t)n);
    case VD_KEYBOARD_SET_LAMPS: return n <= 7;
    case VD_KEYBOARD_SET_SCANCODE_SET: return 1 <= n && n <= 3;
    case VD_KEYBOARD_SET_REPEAT: return n <= 255;
    case VD_MOUSE_SET_IDENTITY: return is_identity(n);
    case VD_MOUSE_READ_PACKET: return is_identity(n);
    case VD_PREFERENCES_APPLY: return n >> 48 == 0 && ((n & 0xFF) == 1 || (n & 0xFF) == 2);
    case VD_MOUSE_COMMAND: return n <= 255 && is_mouse_command((uint32_t)n);
    case VD_MOUSE_SET_SAMPLING_RATE: return n <= 255 && is_rate((uint32_t)n);
    case VD_MOUSE_SET_RESOLUTION: return n <= 3;
    default: return 1 <= operation && operation <= OPERATIONS && n == 0;
    }
}

static void request_asked(vd_request r)
{
    answered(r.refusal);
    ask(r.kind <= VD_WRITE, "a request is a read, a write or the end");
    ask(r.kind == VD_DONE ? r.port == 0 && r.byte == 0 : r.port == VD_DATA_PORT || r.port == VD_STATUS_PORT, "a request that is no end names a port");
    ask(r.byte <= 255 && (r.kind == VD_WRITE || r.byte == 0), "a write has a byte");
    ask(r.kind == VD_DONE || r.refusal == 0, "what goes on is not refused");
    ask(r.refusal != VD_SCRIPT_ENDS && r.refusal != VD_LOG_FULL, "live ports lack nothing");
    ask((r.refusal != VD_MALFORMED_RECORD && r.refusal != VD_INVALID_ARGUMENT) || unchanged_from(2, 0), "21 and 255 leave the numbers");
    marks_stand(2);
}

static int same_request(vd_request a, vd_request b)
{
    return memcmp(&a, &b, sizeof a) == 0;
}

/* The numbers that go on, or these with one of them changed, or any; of the right number, or of another. */
static uint64_t *put_step(int *is_same)
{
    size_t length = swept != SIZE_MAX ? swept : below(8) ? VD_STEP_WORDS : below(VD_STEP_WORDS + 20), k, mode = below(8);
    uint64_t *words = (uint64_t *)lend(2, 8 * length);
    for (k = 0; k < length; k++)
        words[k] = mode == 0 ? number() : k < VD_STEP_WORDS ? step.words[k] : chance();
    if (mode == 1 && length) {
        k = below(length < 24 || below(2) ? length : 24);
        words[k] = below(2) ? number() : words[k] ^ (uint64_t)1 << below(64);
    }
    remember(2);
    *is_same = mode > 1 && length == VD_STEP_WORDS;
    return words;
}

static void step_goes_on(const uint64_t *words, vd_request wanted)
{
    memcpy(step.words, words, sizeof step.words);
    step.wanted = wanted;
    step.was_begun = 1;
}

static void step_begin(void)
{
    static const uint64_t likely[] = {0, 0, 1, 2, 3, 4, 7, 10, 100, 200, 0xED, 0xF2, 0xF4, 0xFF, 0x703640101, 0x240703640102};
    uint32_t operation = below(8) ? 1 + (uint32_t)below(OPERATIONS) : (uint32_t)number();
    uint64_t argument = below(8) ? likely[below(sizeof likely / sizeof *likely)] : number();
    size_t length, k;
    uint64_t *words;
    int tries;
    vd_request r;
    for (tries = 0; tries < 8 && !is_argument(operation, argument); tries++)
        argument = likely[below(sizeof likely / sizeof *likely)];
    length = swept != SIZE_MAX ? swept : below(8) ? VD_STEP_WORDS : below(VD_STEP_WORDS + 20);
    words = (uint64_t *)lend(2, 8 * length);
    for (k = 0; k < length; k++)
        words[k] = number();
    remember(2);
    called("vd_begin");
    r = vd_begin(words, length, operation, argument);
    request_asked(r);
    ask((r.refusal == VD_INVALID_ARGUMENT) == !is_argument(operation, argument), "255 is answered where operation or argument is invalid, and only there");
    ask(r.refusal == VD_INVALID_ARGUMENT || (r.refusal == VD_MALFORMED_RECORD) == (length != VD_STEP_WORDS), "21 is answered to another length, and only there");
    if (r.refusal != VD_INVALID_ARGUMENT && r.refusal != VD_MALFORMED_RECORD)
        step_goes_on(words, r);
}

static void stepped(void)
{
    static const uint8_t likely[] = {0x00, 0x01, 0x21, 0xFA, 0xFA, 0xAA, 0x55, 0x00, 0x03, 0xAB, 0x83, 0xFE, 0x1E, 0x3A};
    int is_same, which = (int)below(8);
    uint64_t *words;
    vd_request r;
    if (which == 0 || !step.was_begun) {
        step_begin();
        return;
    }
    words = put_step(&is_same);
    if (which == 1) {
        called("vd_wanted");
        r = vd_wanted(words, slots[2].bytes / 8);
        /* Numbers that no beginning made may say that an operation has ended with any refusal. */
        if (!is_same && r.kind == VD_DONE && r.refusal < 256)
            r.refusal = VD_MALFORMED_RECORD;
        request_asked(r);
        ask(unchanged_from(2, 0), "a look leaves the numbers");
        ask(!is_same || same_request(r, step.wanted), "what is wanted is wanted again");
    } else if (which == 2) {
        vd_kept kept;
        called("vd_step_kept");
        kept = vd_step_kept(words, slots[2].bytes / 8);
        answered(kept.refusal);
        ask(kept.refusal == 0 || (kept.refusal == VD_MALFORMED_RECORD && !is_same && is_zero(&kept.count, sizeof kept - offsetof(vd_kept, count))), "21 alone is answered, and not to an operation");
        ask(kept.port == 0 && kept.used == 0 && kept.pairs == 0, "a look reads and writes nothing");
        ask(kept.count <= VD_KEPT_BYTES, "at most 16 are kept");
        ask(!is_same || ((kept.others == 0 || kept.count == VD_KEPT_BYTES) && is_zero(kept.bytes + kept.count, VD_KEPT_BYTES - kept.count)), "others are those behind 16");
        ask(unchanged_from(2, 0), "a look leaves the numbers");
        marks_stand(2);
    } else {
        uint32_t byte = below(16) == 0 ? (uint32_t)number() : below(2) ? likely[below(sizeof likely)] : (uint32_t)below(256);
        called("vd_next");
        r = vd_next(words, slots[2].bytes / 8, byte);
        request_asked(r);
        ask((r.refusal == VD_INVALID_ARGUMENT) == (byte > 255), "255 is answered to what is no byte, and only there");
        ask(byte > 255 || !is_same || (r.refusal == VD_MALFORMED_RECORD) == (step.wanted.kind == VD_DONE), "21 is answered behind the end, and not before it");
        if (is_same && byte <= 255 && step.wanted.kind != VD_DONE)
            step_goes_on(words, r);
    }
}

/* ---- the others */

enum { OTHERS = 20 };

static void other(int which)
{
    uint32_t n = below(3) ? (uint32_t)below(256) : (uint32_t)number(), m = below(3) ? (uint32_t)below(3) : (uint32_t)number();
    size_t length = words_of(VD_HANDLER_WORDS), in = below(120), out = below(200);
    uint64_t *words;
    switch (which) {
    case 0: {
        uint32_t refusal;
        words = put_words(2, length, VD_HANDLER_WORDS);
        called("vd_handler_fresh");
        refusal = vd_handler_fresh((vd_handler *)words, length, n % 4, m);
        answered(refusal);
        ask(refusal == (n % 4 == 0 || n % 4 == 3 || m > 1 ? 255u : length != VD_HANDLER_WORDS ? 21u : 0u) && (refusal == 0 || unchanged_from(2, 0)), "255, then 21, leave the record");
        ask(refusal || is_zero(words + 16, 8 * VD_QUEUE_LENGTH), "a fresh record has no event");
        break;
    }
    case 1: {
        uint32_t refusal;
        length = words_of(VD_DISPATCHER_WORDS);
        words = put_words(2, length, VD_DISPATCHER_WORDS);
        called("vd_dispatcher_fresh");
        n = below(8) ? 3 * (n % 2) : n;
        refusal = vd_dispatcher_fresh((vd_dispatcher *)words, length, 1 + n % 2, m, n);
        answered(refusal);
        ask(refusal == (m > 1 || !is_identity(n) ? 255u : length != VD_DISPATCHER_WORDS ? 21u : 0u) && (refusal == 0 || unchanged_from(2, 0)), "255, then 21, leave the state");
        break;
    }
    case 2: {
        vd_taken t;
        words = put_words(2, length, VD_HANDLER_WORDS);
        called("vd_take");
        t = vd_take((vd_handler *)words, length);
        answered(t.refusal);
        ask(t.refusal == 0 || (t.refusal == 21 && unchanged_from(2, 0)), "21 leaves the record");
        ask((t.refusal == 21) == (length != VD_HANDLER_WORDS || is_malformed(lent(2))), "21 is answered to another length and to a malformed record, and only there");
        ask(t.side <= 2 && is_keycode(t.keycode) && t.action <= 1 && t.flags <= 65535, "an event's numbers are in range");
        go_on(2, VD_HANDLER_WORDS);
        ask(t.side != 0 || (t.keycode == 0 && t.action == 0 && t.flags == 0 && unchanged_from(2, 0)), "no event is 0, and leaves the record");
        break;
    }
    case 3: {
        uint32_t c;
        m = below(2) ? m : (uint32_t)below(70000);
        called("vd_character");
        c = vd_character(n, m);
        answered(0);
        ask((c == 255) == (!is_keycode(n) || m > 65535) && (c == 255 || c < 128), "a character is ASCII, or 255");
        break;
    }
    case 4: {
        uint32_t c;
        called("vd_event_code");
        c = vd_event_code(n, m);
        answered(0);
        ask(!is_keycode(n) || m > 1 ? c == 255 : c == (m ? n % 128 + 128 : n), "an event's code is its keycode, and 128 for a release");
        break;
    }
    case 5: {
        vd_converted a;
        uint8_t *stream = lend(0, in), *to = lend(1, out);
        put_script(0);
        put_bytes(1);
        called("vd_convert_set2");
        a = vd_convert_set2(stream, in, to, out);
        answered(a.refusal);
        ask(a.used <= in && a.written <= out && a.written <= a.used && unchanged_from(0, 0) && unchanged_from(1, a.written), "no more is used and written than there is");
        ask(a.refusal || a.used == in, "a conversion that is done used the stream");
        break;
    }
    case 6: {
        vd_written a;
        uint8_t *text = lend(0, in), *to = lend(1, below(4) ? 4 * in : out);
        size_t k;
        put_bytes(0);
        for (k = 0; k < in && n % 2; k++)
            text[k] = (uint8_t)(32 + text[k] % 95);
        remember(0);
        put_bytes(1);
        out = slots[1].bytes;
        called("vd_type_text");
        a = vd_type_text(text, in, to, out);
        answered(a.refusal);
        ask(a.written <= out && unchanged_from(0, 0) && unchanged_from(1, a.written) && (a.refusal == 0 || a.written == 0), "a refused text leaves the output");
        ask(a.refusal || (2 * in <= a.written && a.written <= 4 * in), "a character is typed by two bytes or four");
        break;
    }
    case 7: {
        vd_salvaged a;
        uint8_t *bytes = lend(0, in), *packets = lend(1, out);
        size_t room = below(60);
        uint64_t *positions = (uint64_t *)lend(2, 8 * room);
        put_bytes(0);
        put_bytes(1);
        put_bytes(2);
        n = below(8) ? 3 * (n % 2) + m % 2 : n;
        called("vd_salvage");
        a = vd_salvage(n, bytes, in, packets, out, positions, room);
        answered(a.refusal);
        ask((a.refusal == 255) == !is_identity(n), "255 is answered where there is no such identity, and only there");
        ask(a.used <= in && a.packet_bytes + a.dropped == a.used && a.packet_bytes <= out && a.dropped <= room, "each byte used is of a packet or dropped");
        ask(unchanged_from(0, 0) && unchanged_from(1, a.packet_bytes) && unchanged_from(2, 8 * a.dropped), "what lies behind has changed");
        ask(a.refusal || in - a.used < (n ? 4u : 3u), "only a cut packet is left");
        break;
    }
    case 8: {
        vd_preferences p;
        vd_preferences_written a;
        uint8_t *to = lend(1, below(12));
        put_bytes(1);
        p.version = below(4) ? 1 + (uint32_t)below(2) : m;
        p.set = below(8) ? 1 + (uint32_t)below(3) : n;
        p.rate = below(8) ? 10u << below(3) : n;
        p.resolution = below(8) ? (uint32_t)below(4) : n;
        p.lamps = below(8) ? (uint32_t)below(8) : n;
        p.repeat = below(8) ? (uint32_t)below(128) : n;
        called("vd_preferences_write");
        a = vd_preferences_write(p, to, slots[1].bytes);
        answered(a.refusal);
        ask((a.refusal == 255) == (p.version != 1 && p.version != 2), "255 is answered to another version, and only there");
        ask(a.written <= slots[1].bytes && unchanged_from(1, a.written) && (a.refusal == 0) == (a.written != 0), "a refused writing leaves the output");
        if (a.refusal == 0) {
            vd_preferences_read r;
            called("vd_preferences_read_2");
            r = vd_preferences_read_2(to, a.written);
            answered(r.refusal);
            p.repeat = p.version == 1 ? 0 : p.repeat;
            ask(r.refusal == 0 && memcmp(&r.preferences, &p, sizeof p) == 0, "what was written is read");
        }
        break;
    }
    case 9:
    case 10: {
        vd_preferences_read r;
        uint8_t *input = lend(0, below(12));
        size_t k;
        put_bytes(0);
        for (k = 0; k < slots[0].bytes && n % 8; k++)
            input[k] = (uint8_t)"\1\4\1\144\3\7\2\5\1\144\3\7\177"[(6 * (n % 2) + k) % 13];
        remember(0);
        called(which == 9 ? "vd_preferences_read_1" : "vd_preferences_read_2");
        r = which == 9 ? vd_preferences_read_1(input, slots[0].bytes) : vd_preferences_read_2(input, slots[0].bytes);
        answered(r.refusal);
        ask(unchanged_from(0, 0) && r.refusal != 255 && (r.refusal == 0 || is_zero(&r.preferences, sizeof r.preferences)), "a refused reading yields no field");
        ask(r.refusal || which == 10 || (r.preferences.version == 1 && r.preferences.repeat == 0), "the version 1 reader shows four fields");
        break;
    }
    case 11:
    case 12: {
        uint8_t *events = lend(0, in), *mouse = lend(1, out);
        vd_report report = vd_report_empty();
        size_t k;
        put_bytes(0);
        put_bytes(1);
        n = below(8) ? 3 * (n % 2) + m % 2 : n;
        for (k = 0; k < sizeof report / 4 && which == 12; k++)
            ((uint32_t *)&report)[k] = (uint32_t)number();
        if (which == 11) {
            vd_report_added a;
            called("vd_report_empty");
            answered(0);
            ask(is_zero(&report, sizeof report), "an empty report is 0");
            report.packets = (uint32_t)number();
            report.x = (int32_t)number();
            called("vd_report_add");
            a = vd_report_add(report, n, events, in, mouse, out);
            answered(a.refusal);
            ask((a.refusal == 255) == !is_identity(n), "255 is answered where there is no such identity, and only there");
            ask(a.refusal == 0 || memcmp(&a.report, &report, sizeof report) == 0, "255 and 32 leave the report");
            ask(a.refusal || a.report.packets == report.packets + out / (n ? 4 : 3), "packets are counted");
        } else {
            vd_mean x, y;
            vd_long_report wide;
            called("vd_report_mean_x");
            x = vd_report_mean_x(report);
            answered(0);
            called("vd_report_mean_y");
            y = vd_report_mean_y(report);
            answered(0);
            called("vd_report_widen");
            wide = vd_report_widen(report);
            answered(0);
            ask(x.present == (report.packets != 0) && y.present == x.present, "a mean is there where there are packets");
            ask(!x.present ? x.quotient == 0 && x.remainder == 0 : x.remainder < report.packets && x.quotient * (int64_t)report.packets + (int64_t)x.remainder == report.x, "quotient and remainder are the sum's");
            ask(!y.present || (y.remainder < report.packets && y.quotient * (int64_t)report.packets + (int64_t)y.remainder == report.y), "quotient and remainder are the sum's");
            ask(wide.packets == report.packets && wide.x == report.x && wide.y == report.y && wide.presses[93] == report.presses[93], "a wide report has the same numbers");
        }
        ask(unchanged_from(0, 0) && unchanged_from(1, 0), "a session has changed");
        break;
    }
    case 13:
    case 14: {
        uint8_t *events = lend(0, in), *mouse = lend(1, out);
        vd_long_report report = vd_long_report_empty();
        put_bytes(0);
        put_bytes(1);
        n = below(8) ? 3 * (n % 2) + m % 2 : n;
        if (which == 13) {
            vd_long_added a;
            called("vd_long_report_empty");
            answered(0);
            ask(is_zero(&report, sizeof report), "an empty report is 0");
            report.packets = number();
            report.x = (int64_t)number();
            called("vd_long_report_add");
            a = vd_long_report_add(report, n, events, in, mouse, out);
            answered(a.refusal);
            ask((a.refusal == 255) == !is_identity(n), "255 is answered where there is no such identity, and only there");
            ask(a.refusal == 0 || memcmp(&a.report, &report, sizeof report) == 0, "255 and 32 leave the report");
        } else {
            vd_mean x, y;
            report.packets = number();
            report.x = (int64_t)number();
            report.y = (int64_t)number();
            called("vd_long_report_mean_x");
            x = vd_long_report_mean_x(report);
            answered(0);
            called("vd_long_report_mean_y");
            y = vd_long_report_mean_y(report);
            answered(0);
            ask(x.present == (report.packets != 0) && y.present == x.present, "a mean is there where there are packets");
            ask(!x.present || (x.remainder < report.packets && (uint64_t)x.quotient * report.packets + x.remainder == (uint64_t)report.x), "quotient and remainder are the sum's");
            ask(!y.present || (y.remainder < report.packets && (uint64_t)y.quotient * report.packets + y.remainder == (uint64_t)report.y), "quotient and remainder are the sum's");
        }
        ask(unchanged_from(0, 0) && unchanged_from(1, 0), "a session has changed");
        break;
    }
    default:
        port_operation(22 + (int)below(2), below(30), below(26));
        break;
    }
}

/* Every length around each limit, for every operation on the ports, and for records. */
static void sweep(void)
{
    int which;
    size_t k, j;
    for (which = 0; which < PORT_OPERATIONS; which++)
        for (k = 0; k < 12; k++)
            for (j = 0; j < 24; j++)
                port_operation(which, k, j);
    for (which = 0; which < OTHERS; which++)
        for (k = 0; k < 100; k++)
            other(which);
    for (swept = 0; swept < 160; swept++)
        for (k = 0; k < 3; k++) {
            for (which = 21; which < PORT_OPERATIONS; which++)
                port_operation(which, 8, VD_HANDLER_LOG);
            for (which = 0; which < 3; which++)
                other(which);
        }
    for (swept = 0; swept < VD_STEP_WORDS + 10; swept++)
        for (k = 0; k < 3; k++) {
            step_begin();
            stepped();
        }
    swept = SIZE_MAX;
}

int main(int argc, char **argv)
{
    unsigned long calls = argc > 1 ? strtoul(argv[1], NULL, 10) : 0;
    int i, r;
    state = 88172645463325252u ^ (argc > 2 ? strtoul(argv[2], NULL, 10) * 0x9E3779B97F4A7C15u : 1);
    in_heap = argc > 3 && strcmp(argv[3], "heap") == 0;
    if (argc < 2) {
        printf("usage: bad_callers CALLS [SEED] [heap]\n");
        return 2;
    }
    make_areas();
    sweep();
    while (call_number < calls) {
        if (below(3) == 0)
            stepped();
        else if (below(2))
            port_operation((int)below(PORT_OPERATIONS), below(16) ? below(60) : below(4000), below(4) ? VD_LOG_BYTES : below(30));
        else
            other((int)below(OTHERS));
    }
    for (i = 0; i < FUNCTIONS; i++) {
        if (counts[i].name == NULL) {
            printf("bad_callers: %d functions were called, and not all %d\n", i, FUNCTIONS);
            return 1;
        }
        printf("%-30s %8lu calls, refusals", counts[i].name, counts[i].calls);
        for (r = 0; r < 256; r++)
            if (counts[i].seen[r])
                printf(" %d", r);
        printf("\n");
    }
    for (i = 0; i < SLOTS; i++)
        free(slots[i].block);
    printf("bad_callers: %lu calls of %d functions, all right\n", call_number, FUNCTIONS);
    return 0;
}
