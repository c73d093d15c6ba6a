/* A keyboard and a mouse with no operating system: every byte that the 8042 gives goes through the
   proved library. What is here is not proved: it asks whose byte waits, does at the ports what the
   library's operations want, and shows what comes of them on the screen and the serial line.

   Built with -DINTERRUPTS it sleeps until an interrupt comes, and a call goes on from one to the
   next; without, it polls with interrupts off. */
#include <stddef.h>
#include <stdint.h>
#include "interrupts.h"
#include "machine.h"
#include "ports.h"
#include "vurdellow.h"

static _Alignas(128) vd_handler record;
static exchange ports;
static vd_controller controller;
static uint32_t identity, buttons;
static int is_taking = 1; /* whether events are taken as they come: F1 stops it, and F1 again goes on */
static uint64_t lost;     /* events that met a full queue */

/* ---- the screen */

#define PLAIN ON(GREY, BLACK)
#define DIM ON(DARK, BLACK)
#define HEAD ON(BLACK, CYAN)
enum { TRAFFIC_ROW = 3, FLAGS_ROW = 6, QUEUE_ROW = 8, TYPED_ROW = 11, FIRST_SAID_ROW = 13, LAST_SAID_ROW = 21, MOUSE_ROW = 23, FIRST_COLUMN = 8, LAST_COLUMN = 79 };
enum { CELL = 8, MOST_X = COLUMNS * CELL - 1, MOST_Y = ROWS * CELL - 1 }; /* the pointer moves by an eighth of a cell */

static int mouse_x = MOST_X / 2, mouse_y = MOST_Y / 2;
static uint16_t under_pointer;
static int is_shown;

static void pointer_hide(void)
{
    if (is_shown)
        cell_put((unsigned)mouse_y / CELL, (unsigned)mouse_x / CELL, under_pointer);
    is_shown = 0;
}

static void pointer_show(void)
{
    unsigned row = (unsigned)mouse_y / CELL, column = (unsigned)mouse_x / CELL;
    if (!controller.mouse)
        return;
    under_pointer = cell_at(row, column);
    cell(row, column, under_pointer & 0xFF, ON(BLACK, buttons ? RED : GREY));
    is_shown = 1;
}

/* The traffic on the ports, two rows in turn: data read white, data written yellow, commands red. Reads of the status are not shown. */
void saw(uint8_t port, uint8_t value, int is_write)
{
    static unsigned column = COLUMNS, row = TRAFFIC_ROW + 1;
    text it = { .length = 0 };
    if (port == VD_STATUS_PORT && !is_write)
        return;
    if (column + 3 > LAST_COLUMN)
        row = row == TRAFFIC_ROW ? TRAFFIC_ROW + 1 : TRAFFIC_ROW, column = 1, blank(row, 0, COLUMNS, PLAIN);
    put_hex(&it, value, 2);
    column = write(row, column, ON(!is_write ? WHITE : port == VD_STATUS_PORT ? BRIGHT_RED : YELLOW, BLACK), it.letters) + 1;
}

static void show_record(void)
{
    static const char *const names[] = { "ShiftL", "ShiftR", "CtrlL", "CtrlR", "Alt", "SuperL", "SuperR", "CAPS", "NUM", "SCROLL", "AltGr" };
    unsigned i, column = FIRST_COLUMN;
    uint64_t waiting = record.words[VD_EVENTS_WAITING], flags = record.words[VD_FIRST_FLAGS];
    int is_full = waiting == VD_QUEUE_LENGTH;
    text it = { .length = 0 };
    for (i = 0; i < sizeof names / sizeof *names; i++)
        column = write(FLAGS_ROW, column, flags >> i & 1 ? ON(BLACK, i < 7 ? GREEN : BROWN) : DIM, names[i]) + 1;
    for (i = 0; i < VD_QUEUE_LENGTH; i++)
        cell(QUEUE_ROW + i / 64, FIRST_COLUMN + i % 64, i < waiting ? 0xDB : 0xFA, i < waiting ? ON(is_full ? BRIGHT_RED : BRIGHT_GREEN, BLACK) : DIM);
    put_number(&it, (int64_t)waiting), put_text(&it, "   ");
    write(QUEUE_ROW, FIRST_COLUMN + 66, is_full ? ON(BRIGHT_RED, BLACK) : ON(WHITE, BLACK), it.letters);
    it.length = 0, put_number(&it, (int64_t)lost), put_text(&it, " lost");
    write(QUEUE_ROW + 1, FIRST_COLUMN + 66, lost ? ON(BRIGHT_RED, BLACK) : DIM, it.letters);
}

static void show_line(unsigned colour, const text *it)
{
    static unsigned row = FIRST_SAID_ROW;
    unsigned next = row == LAST_SAID_ROW ? FIRST_SAID_ROW : row + 1;
    blank(row, 1, COLUMNS, PLAIN);
    write(row, 1, colour, it->letters);
    blank(next, 0, COLUMNS, PLAIN);
    row = next;
}

static void type(uint32_t character)
{
    static unsigned typed;
    if (character == '\b') {
        if (typed > 0)
            cell(TYPED_ROW, FIRST_COLUMN + --typed, ' ', PLAIN);
    } else if (character == '\n' || character == 27) {
        blank(TYPED_ROW, FIRST_COLUMN, LAST_COLUMN, PLAIN), typed = 0;
    } else if (character >= 32 && FIRST_COLUMN + typed < LAST_COLUMN) {
        cell(TYPED_ROW, FIRST_COLUMN + typed++, (uint8_t)character, ON(WHITE, BLACK));
    }
}

/* ---- what the calls came to, on the serial line */

static void say(unsigned colour, const text *it)
{
    serial_line(it->letters);
    if (colour)
        show_line(colour, it);
}

/* The script that the call read and the log that it wrote, as the recorded calls of tests/traces have them. */
static void put_call(text *to, const char *name)
{
    put_text(to, name), put_text(to, " script="), put_bytes(to, ports.script, ports.read);
    put_text(to, " log="), put_bytes(to, ports.log, 2 * ports.written);
    put_text(to, " refused="), put_number(to, ports.wanted.refusal);
}

extern uint8_t stack_bottom[], stack_top[];
enum { UNUSED = 0xA5 };

static size_t stack_used(void)
{
    const uint8_t *p = stack_bottom;
    size_t most;
    while (p < stack_top && *p == UNUSED)
        p++;
    most = (size_t)(stack_top - p);
#ifdef INTERRUPTS
    most = interrupts_stack_used() > most ? interrupts_stack_used() : most;
#endif
    return most;
}

/* ---- events */

static void take_all(void)
{
    for (;;) {
        vd_taken event = vd_take(&record, VD_HANDLER_WORDS);
        uint32_t character;
        text it = { .length = 0 };
        if (event.side == 0)
            return;
        /* A line as the program tablekeys writes it, behind the word. */
        character = vd_character(event.keycode, event.flags);
        put_text(&it, "event "), put_hex(&it, event.keycode, 2);
        put_text(&it, event.action == VD_PRESSED ? " P " : " R "), put_hex(&it, event.flags, 3), put(&it, ' ');
        if (character)
            put_number(&it, character);
        else
            put(&it, '-');
        say(event.action == VD_PRESSED ? ON(BRIGHT_GREEN, BLACK) : ON(GREEN, BLACK), &it);
        if (event.action == VD_PRESSED)
            type(character);
        show_record();
    }
}

/* ---- the mouse: a byte at a time, until they are a packet */

static void mouse_byte(uint8_t byte)
{
    static uint64_t words[VD_STEP_WORDS];
    static int is_begun;
    const uint64_t *outcome = words + VD_OUTCOME_AT;
    int32_t x, y, wheel;
    text it = { .length = 0 };
    if (!is_begun)
        vd_begin(words, VD_STEP_WORDS, VD_MOUSE_READ_PACKET, identity);
    is_begun = vd_next(words, VD_STEP_WORDS, byte).kind != VD_DONE;
    if (is_begun)
        return;
    buttons = (uint32_t)outcome[0], x = (int32_t)outcome[1], y = (int32_t)outcome[2], wheel = (int32_t)outcome[3];
    mouse_x += x, mouse_y -= y;
    mouse_x = mouse_x < 0 ? 0 : mouse_x > MOST_X ? MOST_X : mouse_x;
    mouse_y = mouse_y < 0 ? 0 : mouse_y > MOST_Y ? MOST_Y : mouse_y;
    put_text(&it, "packet x="), put_number(&it, x), put_text(&it, " y="), put_number(&it, y);
    put_text(&it, " wheel="), put_number(&it, wheel), put_text(&it, " buttons="), put_hex(&it, buttons, 2);
    serial_line(it.letters);
    blank(MOUSE_ROW, FIRST_COLUMN, LAST_COLUMN, PLAIN), write(MOUSE_ROW, FIRST_COLUMN, ON(BRIGHT_CYAN, BLACK), it.letters);
}

/* ---- the keyboard: a byte at a time; a lock's lamps are told to the keyboard at once */

/* While a lamp exchange reads bytes the mouse is kept quiet: the exchange would take a byte of the mouse for the keyboard's. */
enum { MOUSE_OFF = 0xA7, MOUSE_ON = 0xA8 };

static void mouse_port(uint8_t command)
{
    if (!controller.mouse)
        return;
    while (in8(VD_STATUS_PORT) & 2)
        ;
    out8(VD_STATUS_PORT, command);
    while (in8(VD_STATUS_PORT) & 2)
        ;
    if (command == MOUSE_OFF && (in8(VD_STATUS_PORT) & 0x21) == 0x21)
        mouse_byte(in8(VD_DATA_PORT));
}

enum { F1_RELEASED = 0xBB };

/* How many interrupts the call took. */
static unsigned interrupts;

/* What a handler call came to. */
static void tell_handled(void)
{
    uint32_t refusal = ports.wanted.refusal, lamps = ports.call.lamps, dropped = ports.call.dropped;
    text it = { .length = 0 };
    put_call(&it, "handle");
    if (interrupts > 1)
        put_text(&it, " interrupts="), put_number(&it, interrupts);
    interrupts = 0;
    if (lamps)
        put_text(&it, " lamps="), put_number(&it, lamps);
    if (dropped)
        put_text(&it, " dropped="), put_number(&it, dropped);
    if (refusal == VD_QUEUE_FULL)
        lost++, put_text(&it, " flags="), put_hex(&it, (uint32_t)record.words[VD_FIRST_FLAGS], 3);
    say(refusal ? ON(BRIGHT_RED, BLACK) : ports.written ? ON(YELLOW, BLACK) : 0, &it);
    show_record();
    if (ports.read == 1 && ports.script[0] == F1_RELEASED) {
        if (is_taking)
            take_all();
        is_taking = !is_taking;
        it.length = 0, put_text(&it, is_taking ? "events are taken; stack used so far " : "nobody takes events; stack used so far ");
        put_number(&it, (int64_t)stack_used());
        say(ON(WHITE, BLACK), &it);
    }
}

static int is_quiet; /* whether the mouse is, for a lamp exchange */

/* Goes on with a handler call; when it has ended, with those of the bytes that wait in the
   record. An interrupt leaves to the next what the keyboard has yet to answer. */
static void keyboard_goes_on(unsigned polls)
{
    for (;;) {
        interrupts++;
        if (ports.wanted.kind != VD_DONE && !is_quiet)
            mouse_port(MOUSE_OFF), is_quiet = 1;
#ifdef INTERRUPTS
        if (!exchange_goes_on(&ports, polls))
            return;
#else
        (void)polls;
        exchange_finish(&ports);
#endif
        if (is_quiet)
            mouse_port(MOUSE_ON), is_quiet = 0;
        tell_handled();
        if (record.words[VD_FIRST_WAITING] == 0)
            return;
        exchange_handle(&ports, &record);
    }
}

/* A byte of the keyboard can be read. */
static void keyboard_byte(void)
{
    exchange_handle(&ports, &record);
    exchange_step(&ports);
    keyboard_goes_on(1);
}

/* Whoever's byte waits: whether one did. */
static int serve(void)
{
    uint8_t status = in8(VD_STATUS_PORT);
    if (!(status & 1))
        return 0;
    pointer_hide();
    if (status & 0x20)
        mouse_byte(in8(VD_DATA_PORT));
    else
        keyboard_byte();
    pointer_show();
    return 1;
}

/* ---- the start */

static uint64_t *run(const char *name, uint32_t operation, uint64_t argument)
{
    text it = { .length = 0 };
    exchange_begin(&ports, operation, argument);
    exchange_finish(&ports);
    put_call(&it, name);
    serial_line(it.letters);
    return ports.words + VD_OUTCOME_AT;
}

static void devices_begin(void)
{
    uint64_t *outcome = run("init", VD_CONTROLLER_INIT, 0);
    text it = { .length = 0 };
    controller.initialized = (uint32_t)outcome[0], controller.keyboard = (uint32_t)outcome[1], controller.mouse = (uint32_t)outcome[2];
    put_text(&it, "controller: refused "), put_number(&it, ports.wanted.refusal);
    put_text(&it, ", keyboard "), put_number(&it, controller.keyboard), put_text(&it, ", mouse "), put_number(&it, controller.mouse);
    say(ON(WHITE, BLACK), &it);

    run("keyboard_init", VD_KEYBOARD_INIT, 0);
    vd_handler_fresh(&record, VD_HANDLER_WORDS, VD_ONE_KEYBOARD, VD_ANY_KEYS);
    if (controller.mouse) {
        identity = (uint32_t)*run("set_mouse_id", VD_MOUSE_SET_IDENTITY, VD_NO_WHEEL);
        run("mouse_enable", VD_MOUSE_START_PACKETS, 0);
        it.length = 0, put_text(&it, "mouse: identity "), put_number(&it, identity);
        say(ON(WHITE, BLACK), &it);
    }
    it.length = 0, put_number(&it, (int64_t)traffic_so_far.reads), put_text(&it, " reads, "), put_number(&it, (int64_t)traffic_so_far.writes);
    put_text(&it, " writes; stack used so far "), put_number(&it, (int64_t)stack_used());
    say(ON(WHITE, BLACK), &it);
}

static void screen_heads(void)
{
    screen_begin();
    blank(0, 0, COLUMNS, HEAD), write(0, 1, HEAD, "Vurdellow on bare metal: a PS/2 keyboard and mouse through the proved library");
    write(TRAFFIC_ROW - 1, 1, DIM, "Ports: read from 60 white, written to 60 yellow, commands to 64 red");
    write(FLAGS_ROW, 1, DIM, "Flags"), write(QUEUE_ROW, 1, DIM, "Queue"), write(TYPED_ROW, 1, DIM, "Text"), write(MOUSE_ROW, 1, DIM, "Mouse");
    blank(ROWS - 1, 0, COLUMNS, HEAD), write(ROWS - 1, 1, HEAD, "F1: nobody takes events, and the queue fills up. F1 again: they are taken");
}

#ifdef INTERRUPTS
/* A call goes on, if there is one. Otherwise a byte an interrupt; none is there where a call has
   read it. */
static void on_byte(void)
{
    if (ports.wanted.kind == VD_DONE)
        serve();
    else
        pointer_hide(), keyboard_goes_on(1), pointer_show();
}

/* Some 18 times a second: a keyboard that says nothing is given up when the script's room is
   used up, in about a second. */
static void on_tick(void)
{
    if (ports.wanted.kind != VD_DONE)
        pointer_hide(), keyboard_goes_on(SCRIPT_ROOM / 16), pointer_show();
}
#endif

void kernel(void)
{
    uint8_t *p, *here = __builtin_frame_address(0);
    for (p = stack_bottom; p < here - 512; p++)
        *p = UNUSED;
    serial_begin();
    screen_heads();
#ifdef INTERRUPTS
    interrupts_begin(on_byte, on_byte, on_tick);
#endif
    devices_begin();
    serial_line("ready");
    show_record();
    pointer_show();
    for (;;) {
#ifdef INTERRUPTS
        interrupts_wait();
#else
        if (!serve())
            __asm__ volatile("pause");
#endif
        /* While a call goes on the record is the call's. */
        if (is_taking && ports.wanted.kind == VD_DONE && record.words[VD_EVENTS_WAITING] > 0)
            pointer_hide(), take_all(), pointer_show();
    }
}
