/* Vurdellow: a keyboard and mouse input layer for PS/2 sockets, in which every function is proved. docs/USING.md is its guide.
   dist/ has archives for x86-64, with SSE4.2 and for any, and for 64-bit Arm, and a module for WebAssembly: one interface for all.

   No function allocates, keeps anything between two calls, or touches anything but what it is lent: a record, a script, a log, an output.
   None asks anything of its caller but that a pointer and its length are those of one array (a length of 0 goes with any pointer, null
   too), and that what it writes overlaps nothing else that it is lent. Any contents will do.

   A script holds the bytes that are read from ports 0x60 and 0x64, in the order of the reads. A log takes two bytes for each write, the
   port and the value; the log behind the pairs that were written is left as it was. Answers tell how many script bytes were used, and
   how many pairs were written.

   A refusal is a number: 0 none, 1 to 33 as in docs/REFUSALS.md, and 255 if an argument is invalid (no such side, identity, table ..):
   then nothing was read, written or changed, and all other fields of the answer are 0, but that a report comes back as it was.
   vd_refusal_text says it in words.

   A function whose name has `get` asks a device, and one whose name has `set` tells it. An enum has 32 bits; any number may be passed as
   one. */
#ifndef VURDELLOW_H
#define VURDELLOW_H

#include <stddef.h>
#include <stdint.h>

#ifdef __cplusplus
extern "C" {
#endif

/* ---- version: a program can ask `#if VD_VERSION_NUMBER >= 100` for 0.1.0 or later (10,000 a major number, 100 a minor one) */

#define VD_VERSION "0.1.0"
#define VD_VERSION_NUMBER 100

/* ---- sizes */

/* How many numbers a handler's record has (vd_handler), and a dispatcher's state (vd_dispatcher), which begins with a handler's record. */
#define VD_HANDLER_WORDS 144
#define VD_DISPATCHER_WORDS 149
/* The places in a handler's record of the flags of either side, of how many of its bytes wait, and of how many events wait. */
#define VD_FIRST_FLAGS 1
#define VD_FIRST_WAITING 2
#define VD_SECOND_FLAGS 6
#define VD_SECOND_WAITING 7
#define VD_EVENTS_WAITING 13
/* How many events wait at most, and of one side if there are two keyboards. */
#define VD_QUEUE_LENGTH 128
#define VD_SIDE_LENGTH 96
/* Bytes that a command threw away and hands back; keys that a report counts. */
#define VD_KEPT_BYTES 16
#define VD_REPORT_KEYS 94
/* Log bytes with which no call ends in VD_LOG_FULL: a handler call or a dispatcher's step, and any call at all. */
#define VD_HANDLER_LOG 20
#define VD_LOG_BYTES 160
/* How many numbers an operation a byte at a time has, and where in them its outcome is: four
   numbers. */
#define VD_STEP_WORDS 256
#define VD_OUTCOME_AT 8

/* ---- numbers of arguments and answers */

enum vd_side { VD_SIDE_1 = 1, VD_SIDE_2 = 2 };
enum vd_keyboards { VD_ONE_KEYBOARD = 1, VD_TWO_KEYBOARDS = 2 };
enum vd_profile { VD_ANY_KEYS = 0, VD_TOURNAMENT_KEYS = 1 };
enum vd_action { VD_PRESSED = 0, VD_RELEASED = 1 };
enum vd_identity { VD_NO_WHEEL = 0, VD_WHEEL = 3, VD_FIVE_BUTTONS = 4 };
enum vd_keyboard_type { VD_MF2_KEYBOARD = 1, VD_MF2_KEYBOARD_TRANSLATED = 2, VD_ANCIENT_AT_KEYBOARD = 3 };
enum vd_source { VD_NOBODY = 0, VD_FROM_SIDE_1 = 1, VD_FROM_SIDE_2 = 2, VD_FROM_MOUSE = 3 };

/* The ports as a lack names them: the one that the whole run would read next. */
enum vd_port { VD_DATA_PORT = 0x60, VD_STATUS_PORT = 0x64 };

/* The operations that go a byte at a time (vd_begin). Each does what the function of its name
   does. "of" names its argument, which is 0 if none is named. "out" names its outcome, which is 0
   if none is named, and after a refusal unless the line tells otherwise. */
enum vd_operation {
    VD_CONTROLLER_INIT = 1,           /* of 1 if it is initialised + 2 with a keyboard + 4 with a mouse; out: these three, 0 or 1 each,
                                         and as they were passed after a refusal */
    VD_KEYBOARD_INIT = 2,             /* what vd_keyboard_init does at the ports; vd_handler_fresh makes the record */
    VD_KEYBOARD_RESET = 3,
    VD_KEYBOARD_COMMAND = 4,          /* of the command byte; vd_step_kept has what was thrown away */
    VD_KEYBOARD_SET_LAMPS = 5,        /* of the lamps, 0 to 7; vd_step_kept has what was thrown away */
    VD_KEYBOARD_SET_SCANCODE_SET = 6, /* of the set, 1 to 3 */
    VD_KEYBOARD_GET_SCANCODE_SET = 7, /* out: the set, 0 to 3 */
    VD_KEYBOARD_DETECT = 8,           /* out: a vd_keyboard_type */
    VD_KEYBOARD_SET_REPEAT = 9,       /* of the byte, 0 to 255 */
    VD_KEYBOARD_WAITS = 10,           /* out: 0 or 1 */
    VD_KEYBOARD_READ_SCANCODE = 11,   /* out: the byte */
    VD_MOUSE_RESET = 12,
    VD_MOUSE_START_PACKETS = 13,
    VD_MOUSE_STOP_PACKETS = 14,
    VD_MOUSE_GET_IDENTITY = 15,       /* out: a vd_identity */
    VD_MOUSE_SET_IDENTITY = 16,       /* of the identity that is known; out: the one that is known afterwards, after a refusal too */
    VD_MOUSE_COMMAND = 17,            /* of the command byte; vd_step_kept has what was thrown away */
    VD_MOUSE_SET_SAMPLING_RATE = 18,  /* of the rate */
    VD_MOUSE_SET_RESOLUTION = 19,     /* of the resolution, 0 to 3 */
    VD_MOUSE_WAITS = 20,              /* out: 0 or 1 */
    VD_MOUSE_READ_PACKET = 21,        /* of the identity; out: buttons, x, y and wheel as vd_packet has them, the last three signed:
                                         x is (int32_t)words[VD_OUTCOME_AT + 1] */
    VD_PREFERENCES_APPLY = 22         /* of six bytes, from the lowest: version, set, rate, resolution, lamps, repeat. 255 stands for a number
                                         above it, since no field may be 255 */
};

/* What is to be done next: nothing, since the operation has ended, or a read or a write. */
enum vd_request_kind { VD_DONE = 0, VD_READ = 1, VD_WRITE = 2 };

/* Lamps, added up. */
enum vd_lamp { VD_SCROLL_LAMP = 1, VD_NUM_LAMP = 2, VD_CAPS_LAMP = 4 };

/* A packet's buttons, added up. */
enum vd_button { VD_LEFT_BUTTON = 1, VD_RIGHT_BUTTON = 2, VD_MIDDLE_BUTTON = 4, VD_FOURTH_BUTTON = 8, VD_FIFTH_BUTTON = 16 };

/* The flags of an event, added up: modifier keys that are held, and locks that are on. */
enum vd_flag {
    VD_SHIFT_LEFT = 1 << 0,
    VD_SHIFT_RIGHT = 1 << 1,
    VD_CONTROL_LEFT = 1 << 2,
    VD_CONTROL_RIGHT = 1 << 3,
    VD_ALT = 1 << 4,
    VD_SUPER_KEY_LEFT = 1 << 5,
    VD_SUPER_KEY_RIGHT = 1 << 6,
    VD_CAPS_LOCK = 1 << 7,
    VD_NUM_LOCK = 1 << 8,
    VD_SCROLL_LOCK = 1 << 9,
    VD_ALT_RIGHT = 1 << 10
};

/* Why a call was refused, or VD_OK. */
enum vd_refusal {
    VD_OK = 0,
    VD_ALREADY_INITIALIZED = 1,
    VD_SCRIPT_ENDS = 2,
    VD_LOG_FULL = 3,
    VD_INPUT_BUFFER_FULL = 4,
    VD_NO_RESPONSE = 5,
    VD_SELF_TEST_FAILED = 6,
    VD_NOT_ACKNOWLEDGED = 7,
    VD_CONTROLLER_TEST_FAILED = 8,
    VD_PORT_TEST_FAILED = 9,
    VD_RESET_FAILED = 10,
    VD_NO_SET_OR_IDENTITY = 11,
    VD_UNKNOWN_KEYBOARD = 12,
    VD_FIRST_IDENTITY_FOUR = 13,
    VD_LEDS_NOT_SET = 14,
    VD_RATE_OR_RESOLUTION_NOT_SET = 15,
    VD_PACKETS_NOT_STOPPED = 16,
    VD_PACKETS_NOT_STARTED = 17,
    VD_KEYBOARD_NOT_DETECTED = 18,
    VD_UNKNOWN_SCANCODE = 19,
    VD_QUEUE_FULL = 20,
    VD_MALFORMED_RECORD = 21,
    VD_NO_ENTRY = 22,
    VD_OUTPUT_FULL = 23,
    VD_ENDS_AFTER_F0 = 24,
    VD_NO_KEY = 25,
    VD_OUTPUT_SHORT = 26,
    VD_MALFORMED_NUMBER = 27,
    VD_OUTSIDE_VALUES = 28,
    VD_BYTES_FOLLOW = 29,
    VD_NO_ROOM = 30,
    VD_SIDE_FULL = 31,
    VD_OUT_OF_RANGE = 32,
    VD_OUTSIDE_PROFILE = 33,
    VD_INVALID_ARGUMENT = 255
};

/* A refusal in words, as the wrapper has them; VD_OK is "not refused", and "no refusal has this number" stands for any other number. */
static inline const char *vd_refusal_text(enum vd_refusal refusal)
{
    switch (refusal) {
    case VD_OK: return "not refused";
    case VD_ALREADY_INITIALIZED: return "the controller is initialised already";
    case VD_SCRIPT_ENDS: return "the script has no byte for the next read";
    case VD_LOG_FULL: return "the log has not two free bytes for the next write";
    case VD_INPUT_BUFFER_FULL: return "the controller was not ready for a byte at 255 reads of the status";
    case VD_NO_RESPONSE: return "no response came within 65,535 polls";
    case VD_SELF_TEST_FAILED: return "the device answered FC or FD: its self test failed";
    case VD_NOT_ACKNOWLEDGED: return "the device acknowledged none of four attempts";
    case VD_CONTROLLER_TEST_FAILED: return "the controller's test brought no 55";
    case VD_PORT_TEST_FAILED: return "no port passed its test";
    case VD_RESET_FAILED: return "no AA came after a reset";
    case VD_NO_SET_OR_IDENTITY: return "no scancode set or mouse identity came within 65,535 polls";
    case VD_UNKNOWN_KEYBOARD: return "the keyboard is of no known type";
    case VD_FIRST_IDENTITY_FOUR: return "the mouse had identity 4 before it was asked for it";
    case VD_LEDS_NOT_SET: return "the lamps were not set";
    case VD_RATE_OR_RESOLUTION_NOT_SET: return "the sampling rate or the resolution was not set";
    case VD_PACKETS_NOT_STOPPED: return "the mouse did not stop sending packets";
    case VD_PACKETS_NOT_STARTED: return "the mouse did not start sending packets";
    case VD_KEYBOARD_NOT_DETECTED: return "the keyboard was not detected";
    case VD_UNKNOWN_SCANCODE: return "the scancode has no key";
    case VD_QUEUE_FULL: return "128 events wait";
    case VD_MALFORMED_RECORD: return "the record is malformed, or the side is not at the table";
    case VD_NO_ENTRY: return "a code has no entry in the table";
    case VD_OUTPUT_FULL: return "the output is full, or too short";
    case VD_ENDS_AFTER_F0: return "the stream ends after F0";
    case VD_NO_KEY: return "a character has no key";
    case VD_OUTPUT_SHORT: return "the output is too short for the text's scancodes";
    case VD_MALFORMED_NUMBER: return "a number is cut short, too large or not shortest";
    case VD_OUTSIDE_VALUES: return "a version, a count or a field is outside its values";
    case VD_BYTES_FOLLOW: return "bytes follow the last field";
    case VD_NO_ROOM: return "the next packet or position does not fit its output";
    case VD_SIDE_FULL: return "96 events of this side wait";
    case VD_OUT_OF_RANGE: return "a count or a sum would be outside its range";
    case VD_OUTSIDE_PROFILE: return "the key is outside the tournament profile";
    case VD_INVALID_ARGUMENT: return "an argument is invalid";
    }
    return "no refusal has this number";
}

/* The keys of events, by their press code in scancode set 1. */
enum vd_keycode {
    VD_KEY_OVERFLOW_ERROR = 0x00,
    VD_KEY_ESCAPE = 0x01,
    VD_KEY_NUM1 = 0x02,
    VD_KEY_NUM2 = 0x03,
    VD_KEY_NUM3 = 0x04,
    VD_KEY_NUM4 = 0x05,
    VD_KEY_NUM5 = 0x06,
    VD_KEY_NUM6 = 0x07,
    VD_KEY_NUM7 = 0x08,
    VD_KEY_NUM8 = 0x09,
    VD_KEY_NUM9 = 0x0A,
    VD_KEY_NUM0 = 0x0B,
    VD_KEY_MINUS = 0x0C,
    VD_KEY_EQUALS = 0x0D,
    VD_KEY_BACKSPACE = 0x0E,
    VD_KEY_TAB = 0x0F,
    VD_KEY_Q = 0x10,
    VD_KEY_W = 0x11,
    VD_KEY_E = 0x12,
    VD_KEY_R = 0x13,
    VD_KEY_T = 0x14,
    VD_KEY_Y = 0x15,
    VD_KEY_U = 0x16,
    VD_KEY_I = 0x17,
    VD_KEY_O = 0x18,
    VD_KEY_P = 0x19,
    VD_KEY_LEFT_BRACKET = 0x1A,
    VD_KEY_RIGHT_BRACKET = 0x1B,
    VD_KEY_ENTER = 0x1C,
    VD_KEY_CONTROL = 0x1D,
    VD_KEY_A = 0x1E,
    VD_KEY_S = 0x1F,
    VD_KEY_D = 0x20,
    VD_KEY_F = 0x21,
    VD_KEY_G = 0x22,
    VD_KEY_H = 0x23,
    VD_KEY_J = 0x24,
    VD_KEY_K = 0x25,
    VD_KEY_L = 0x26,
    VD_KEY_SEMICOLON = 0x27,
    VD_KEY_QUOTE = 0x28,
    VD_KEY_BACKTICK = 0x29,
    VD_KEY_LEFT_SHIFT = 0x2A,
    VD_KEY_BACKSLASH = 0x2B,
    VD_KEY_Z = 0x2C,
    VD_KEY_X = 0x2D,
    VD_KEY_C = 0x2E,
    VD_KEY_V = 0x2F,
    VD_KEY_B = 0x30,
    VD_KEY_N = 0x31,
    VD_KEY_M = 0x32,
    VD_KEY_COMMA = 0x33,
    VD_KEY_PERIOD = 0x34,
    VD_KEY_SLASH = 0x35,
    VD_KEY_RIGHT_SHIFT = 0x36,
    VD_KEY_PAD_MULTIPLY = 0x37,
    VD_KEY_ALT = 0x38,
    VD_KEY_SPACE = 0x39,
    VD_KEY_CAPS_LOCK = 0x3A,
    VD_KEY_F1 = 0x3B,
    VD_KEY_F2 = 0x3C,
    VD_KEY_F3 = 0x3D,
    VD_KEY_F4 = 0x3E,
    VD_KEY_F5 = 0x3F,
    VD_KEY_F6 = 0x40,
    VD_KEY_F7 = 0x41,
    VD_KEY_F8 = 0x42,
    VD_KEY_F9 = 0x43,
    VD_KEY_F10 = 0x44,
    VD_KEY_NUM_LOCK = 0x45,
    VD_KEY_SCROLL_LOCK = 0x46,
    VD_KEY_HOME = 0x47,
    VD_KEY_UP = 0x48,
    VD_KEY_PAGE_UP = 0x49,
    VD_KEY_PAD_MINUS = 0x4A,
    VD_KEY_LEFT = 0x4B,
    VD_KEY_PAD5 = 0x4C,
    VD_KEY_RIGHT = 0x4D,
    VD_KEY_PAD_PLUS = 0x4E,
    VD_KEY_END = 0x4F,
    VD_KEY_DOWN = 0x50,
    VD_KEY_PAGE_DOWN = 0x51,
    VD_KEY_INSERT = 0x52,
    VD_KEY_DELETE = 0x53,
    VD_KEY_UNKNOWN1 = 0x54,
    VD_KEY_UNKNOWN2 = 0x55,
    VD_KEY_NON_US_BACKSLASH = 0x56,
    VD_KEY_F11 = 0x57,
    VD_KEY_F12 = 0x58,
    VD_KEY_PAUSE = 0x59,
    VD_KEY_UNKNOWN3 = 0x5A,
    VD_KEY_SUPER_KEY_LEFT = 0x5B,
    VD_KEY_SUPER_KEY_RIGHT = 0x5C,
    VD_KEY_MENU = 0x5D
};

/* The library passes enums as numbers of 32 bits: a compiler that is told to shorten them (-fshort-enums) is refused here. */
typedef char vd_enums_have_32_bits[sizeof(enum vd_keycode) == 4 && sizeof(enum vd_side) == 4 && sizeof(enum vd_refusal) == 4 ? 1 : -1];

/* ---- answers and records */

/* A handler's record: its numbers are lent to a call, which changes them. Whoever lends one says how many numbers it has,
   VD_HANDLER_WORDS; another length is refused 21. A program may read the numbers whose places are named above, and copy, store and send
   the whole. Aligned to 128 bytes, its first sixteen numbers are on one page; elsewhere a call can take longer, and is otherwise the same
   (docs/USING.md). */
typedef struct vd_handler {
    uint64_t words[VD_HANDLER_WORDS];
} vd_handler;

/* A dispatcher's state: the handler's record, from which vd_take takes the events; the mouse's identity, a vd_identity; how much is used
   of the three scripts, those of side 1, of side 2 and of the mouse; and who was served last, a vd_source. It has VD_DISPATCHER_WORDS
   numbers, and may be read, copied and stored as a handler's record. */
typedef struct vd_dispatcher {
    vd_handler handler;
    uint64_t identity;
    uint64_t places[3];
    uint64_t last_served;
} vd_dispatcher;

/* What an operation on the ports answers. `port` is VD_DATA_PORT or VD_STATUS_PORT if `refusal` is 2, the port of the read that the
   script was too short for, and otherwise 0. `value` is what the operation gives, 0 if it gives nothing or is refused. */
typedef struct vd_answer {
    enum vd_refusal refusal;
    uint32_t port;
    size_t used;
    size_t pairs;
    uint64_t value;
} vd_answer;

/* What a command answers: the earliest 16 bytes that it read and threw away, as keys pressed meanwhile, `count` of them and 0 behind
   them, and the number of the others. They are handed back after a failure too, and none after 2 or 3. */
typedef struct vd_kept {
    enum vd_refusal refusal;
    uint32_t port;
    size_t used;
    size_t pairs;
    uint32_t count;
    uint32_t others;
    uint8_t bytes[VD_KEPT_BYTES];
} vd_kept;

/* A mouse packet that was read: buttons by vd_button, x and y from -256 to 255, and the wheel, signed at every identity.
   All are 0 if it is refused. */
typedef struct vd_packet {
    enum vd_refusal refusal;
    uint32_t port;
    size_t used;
    uint32_t buttons;
    int32_t x;
    int32_t y;
    int32_t wheel;
} vd_packet;

/* The controller's record: whether it is initialised, and which devices are attached. As an argument any number but 0 is "yes"; what an
   initialisation gives back that is done is 0 or 1. A new one is all 0. */
typedef struct vd_controller {
    uint32_t initialized;
    uint32_t keyboard;
    uint32_t mouse;
} vd_controller;

/* What initialisation answers, with the record that it leaves: as it was passed, number by number, if it is refused. */
typedef struct vd_initialized {
    enum vd_refusal refusal;
    uint32_t port;
    size_t used;
    size_t pairs;
    vd_controller controller;
} vd_initialized;

/* What a handler call answers. `lamps` is 14 if a lock's lamp exchange failed, which changes nothing else, and otherwise 0; `dropped`
   is how many bytes of the exchange were lost for want of room. */
typedef struct vd_handled {
    enum vd_refusal refusal;
    enum vd_refusal lamps;
    size_t used;
    size_t pairs;
    uint32_t dropped;
    uint32_t port;
} vd_handled;

/* An event that was taken: its side, keycode, action and flags. `side` is 0, as all other fields, if none waited or it is refused. */
typedef struct vd_taken {
    enum vd_refusal refusal;
    enum vd_side side;
    enum vd_keycode keycode;
    enum vd_action action;
    uint32_t flags;
} vd_taken;

/* What a step answers: who was served, by vd_source, and what the one call that was made answered. `call` is all 0 if no side was
   served, `packet` if no packet was read; `refusal` is that of the call. */
typedef struct vd_step {
    enum vd_refusal refusal;
    enum vd_source source;
    vd_handled call;
    vd_packet packet;
} vd_step;

/* What is to be done next at the ports: a read of `port`, a write of `byte` to it, or nothing
   more (VD_DONE). `refusal` is that of the operation that has ended, never 2 or 3; what a
   request has no use for is 0. */
typedef struct vd_request {
    enum vd_request_kind kind;
    uint32_t port;
    uint32_t byte;
    enum vd_refusal refusal;
} vd_request;

/* What a conversion answers: stream bytes used, output bytes written. Both count after a refusal too. */
typedef struct vd_converted {
    enum vd_refusal refusal;
    size_t used;
    size_t written;
} vd_converted;

/* What a writing answers: how many bytes of the output were written, none if it is refused. */
typedef struct vd_written {
    enum vd_refusal refusal;
    size_t written;
} vd_written;

/* What a salvage pass answers: bytes used, packet bytes written, and positions of dropped bytes written. All count after a refusal too. */
typedef struct vd_salvaged {
    enum vd_refusal refusal;
    size_t used;
    size_t packet_bytes;
    size_t dropped;
} vd_salvaged;

/* A club's preferences: version 1, or 2, which has the repeat byte. Set 1 to 3; rate 10, 20, 40, 60, 80, 100 or 200; resolution 0 to 3;
   lamps by vd_lamp; repeat 0 to 127. At version 1 `repeat` is not looked at. */
typedef struct vd_preferences {
    uint32_t version;
    uint32_t set;
    uint32_t rate;
    uint32_t resolution;
    uint32_t lamps;
    uint32_t repeat;
} vd_preferences;

/* Preferences that were read, all 0 if the reading is refused. */
typedef struct vd_preferences_read {
    enum vd_refusal refusal;
    vd_preferences preferences;
} vd_preferences_read;

/* What the writing of preferences answers: how many bytes were written, none if it is refused. */
typedef struct vd_preferences_written {
    enum vd_refusal refusal;
    size_t written;
} vd_preferences_written;

/* A report over sessions: presses by keycode, packets, and sums of x and y. Any numbers are a report. */
typedef struct vd_report {
    uint32_t presses[VD_REPORT_KEYS];
    uint32_t packets;
    int32_t x;
    int32_t y;
} vd_report;

/* A report with a session more, or as it was if that is refused. */
typedef struct vd_report_added {
    enum vd_refusal refusal;
    vd_report report;
} vd_report_added;

/* A report over a long season, in 64 bits: counts to 281,474,976,710,656, sums to 72,057,594,037,927,936 either way. */
typedef struct vd_long_report {
    uint64_t presses[VD_REPORT_KEYS];
    uint64_t packets;
    int64_t x;
    int64_t y;
} vd_long_report;

/* A long report with a session more, or as it was if that is refused. */
typedef struct vd_long_added {
    enum vd_refusal refusal;
    vd_long_report report;
} vd_long_added;

/* A mean movement: packets * quotient + remainder is the sum, and the remainder is below the packets and never negative.
   `present` is 1, or 0 if there are no packets: then both numbers are 0. */
typedef struct vd_mean {
    uint32_t present;
    int64_t quotient;
    uint64_t remainder;
} vd_mean;

/* ---- operations a byte at a time, in 256 numbers lent by the caller

   For live ports: the library tells what is to be done, the caller does it and hands over what
   came. No call waits. An operation makes the reads and writes that its function makes, with a script of
   what was read, and comes to the same.

       uint64_t words[VD_STEP_WORDS];
       vd_request it = vd_begin(words, VD_STEP_WORDS, VD_KEYBOARD_SET_LAMPS, VD_CAPS_LAMP);
       while (it.kind != VD_DONE) {
           uint32_t byte = 0;
           if (it.kind == VD_WRITE) outb(it.port, it.byte); else byte = inb(it.port);
           it = vd_next(words, VD_STEP_WORDS, byte);
       }

   After that it.refusal tells how it ended, words[VD_OUTCOME_AT] what it gives. The other
   numbers are the library's own: a program may copy, store and send them, and go on with the
   copy. A handler call has no such form: a program makes it again on the bytes that it has read
   so far, as examples/c/interrupt.c does. */

/* Begins an operation, and gives what is to be done first. Any numbers may be lent: they are the
   operation's then. VD_DONE with 255 if the operation or its argument is invalid, then with
   21 if there are not 256 numbers: nothing has changed. */
vd_request vd_begin(uint64_t *words, size_t words_length, enum vd_operation operation, uint64_t argument);

/* Goes on: `byte` is what the read brought; after a write it is any byte, and changes nothing.
   Gives what is to be done next. VD_DONE with 255 if `byte` is above 255, then with 21 if the
   numbers are of no operation that goes on: none was begun, or it has ended. Nothing has changed
   then. */
vd_request vd_next(uint64_t *words, size_t words_length, uint32_t byte);

/* What is to be done next, once more; at the end how it ended.
   VD_DONE with 21 if the numbers are of no operation. */
vd_request vd_wanted(const uint64_t *words, size_t words_length);

/* The bytes that were read and thrown away so far, as vd_kept has them; `port`, `used` and
   `pairs` are 0. Refused 21 if the numbers are of no operation. */
vd_kept vd_step_kept(const uint64_t *words, size_t words_length);

/* ---- the controller */

/* Initialises the controller: tests it and its ports, enables them, resets the devices.
   Refused 1, 2, 3, 8, 9; the record that comes back is as passed then. A device whose reset fails is only not attached. */
vd_initialized vd_controller_init(vd_controller controller, const uint8_t *script, size_t script_length, uint8_t *log, size_t log_length);

/* ---- the keyboard */

/* Makes the record fresh for a table (1 or 2 keyboards, profile 0 or 1), detects the first keyboard and asks it for scancode set 1.
   After 255, 21 (not 144 numbers), 2 and 3 the numbers are as they were; otherwise the record is fresh, also if the keyboard didn't
   do what it was asked: 4 to 7, 11, 18. */
vd_answer vd_keyboard_init(vd_handler *handler, size_t handler_words, enum vd_keyboards keyboards, enum vd_profile profile,
    const uint8_t *script, size_t script_length, uint8_t *log, size_t log_length);

/* Resets the keyboard (FF) and waits for its self test.
   Refused 2 to 7 and 10. */
vd_answer vd_keyboard_reset(const uint8_t *script, size_t script_length, uint8_t *log, size_t log_length);

/* Sends one command byte to the keyboard, up to four times until it is acknowledged: ED, F0, F2, F3, F4, F5, FE or FF, and 255 otherwise.
   Refused 2 to 7. Other bytes that it read are handed back. */
vd_kept vd_keyboard_command(uint32_t byte, const uint8_t *script, size_t script_length, uint8_t *log, size_t log_length);

/* Lights these lamps of the first keyboard, 0 to 7 by vd_lamp, and puts out the others.
   Refused 2, 3 and 14. Keys that were pressed meanwhile are handed back. */
vd_kept vd_keyboard_set_lamps(uint32_t lamps, const uint8_t *script, size_t script_length, uint8_t *log, size_t log_length);

/* Asks the keyboard for scancode set 1, 2 or 3, then which set it speaks; another one is no refusal.
   Refused 2 to 7 and 11. */
vd_answer vd_keyboard_set_scancode_set(uint32_t set, const uint8_t *script, size_t script_length, uint8_t *log, size_t log_length);

/* Asks the keyboard which scancode set it speaks: the value, 0 to 3.
   Refused 2 to 7 and 11. */
vd_answer vd_keyboard_get_scancode_set(const uint8_t *script, size_t script_length, uint8_t *log, size_t log_length);

/* Asks what keyboard this is: the value is a vd_keyboard_type.
   Refused 2 to 7 and 12. */
vd_answer vd_keyboard_detect(const uint8_t *script, size_t script_length, uint8_t *log, size_t log_length);

/* Sets repeat rate and delay (F3 and this byte, 0 to 255).
   Refused 2 to 7. */
vd_answer vd_keyboard_set_repeat(uint32_t byte, const uint8_t *script, size_t script_length, uint8_t *log, size_t log_length);

/* Reads the status once: the value is 1 if the keyboard has a byte to read, and otherwise 0.
   Refused 2. */
vd_answer vd_keyboard_waits(const uint8_t *script, size_t script_length);

/* Reads one byte of the keyboard without asking the status: the value.
   Refused 2. */
vd_answer vd_keyboard_read_scancode(const uint8_t *script, size_t script_length);

/* ---- the mouse */

/* Resets the mouse (FF), waits for its self test and reads one byte more.
   Refused 2 to 7 and 10. */
vd_answer vd_mouse_reset(const uint8_t *script, size_t script_length, uint8_t *log, size_t log_length);

/* Has the mouse send packets (F4).
   Refused 2, 3 and 17. */
vd_answer vd_mouse_start_packets(const uint8_t *script, size_t script_length, uint8_t *log, size_t log_length);

/* Has the mouse stop sending packets (F5).
   Refused 2, 3 and 16. */
vd_answer vd_mouse_stop_packets(const uint8_t *script, size_t script_length, uint8_t *log, size_t log_length);

/* Asks the mouse for its identity: the value, a vd_identity.
   Refused 2 to 7 and 11. */
vd_answer vd_mouse_get_identity(const uint8_t *script, size_t script_length, uint8_t *log, size_t log_length);

/* Tries to switch wheel and side buttons on. `identity` is the one that is known, the value the one that is known afterwards.
   Refused 2, 3, 13, 15, 16 and 17; the value tells the identity that is left then too. */
vd_answer vd_mouse_set_identity(enum vd_identity identity, const uint8_t *script, size_t script_length, uint8_t *log, size_t log_length);

/* Sends one command byte to the mouse, up to four times until it is acknowledged: E6, E8 to EC, EE, F0, F2 to F6, FE or FF, and 255
   otherwise.
   Refused 2 to 7. Other bytes that it read are handed back. */
vd_kept vd_mouse_command(uint32_t byte, const uint8_t *script, size_t script_length, uint8_t *log, size_t log_length);

/* Sets the sampling rate: 10, 20, 40, 60, 80, 100 or 200, and 255 otherwise.
   Refused 2, 3 and 15. */
vd_answer vd_mouse_set_sampling_rate(uint32_t rate, const uint8_t *script, size_t script_length, uint8_t *log, size_t log_length);

/* Sets the resolution: 0 to 3, and 255 otherwise.
   Refused 2, 3 and 15. */
vd_answer vd_mouse_set_resolution(uint32_t resolution, const uint8_t *script, size_t script_length, uint8_t *log, size_t log_length);

/* Reads the status once: the value is 1 if the mouse has a byte to read, and otherwise 0.
   Refused 2. */
vd_answer vd_mouse_waits(const uint8_t *script, size_t script_length);

/* Reads a packet, 3 bytes at identity 0 and 4 at 3 and 4, without asking the status.
   Refused 2. */
vd_packet vd_mouse_read_packet(enum vd_identity identity, const uint8_t *script, size_t script_length);

/* ---- the handler, whose record is 144 numbers lent by the caller */

/* Makes a record fresh for a table with 1 keyboard or 2, under profile 0 (any keys) or 1 (tournament keys).
   Gives the refusal: 255, or 21 if it has not 144 numbers. Then they are as they were. */
enum vd_refusal vd_handler_fresh(vd_handler *handler, size_t handler_words, enum vd_keyboards keyboards, enum vd_profile profile);

/* Handles one byte of a side, its oldest waiting one or otherwise the next of the script; a lock also runs its lamp exchange.
   Refused 2, 3, 21 with the record as it was; after 19, 20, 31, 33 flags and prefix have moved on and the queue has not changed. */
vd_handled vd_handle(vd_handler *handler, size_t handler_words, enum vd_side side, const uint8_t *script, size_t script_length,
    uint8_t *log, size_t log_length);

/* Takes the oldest event out of the record; `side` is 0 if none waits.
   Refused 21, with the record as it was. */
vd_taken vd_take(vd_handler *handler, size_t handler_words);

/* ---- bytes */

/* The ASCII character of a key under flags, 0 if it has none.
   255 if the keycode is none or the flags are above 65535. */
uint32_t vd_character(enum vd_keycode keycode, uint32_t flags);

/* The byte by which a report takes an event: the keycode if it is a press, and from 128 on if it is a release.
   255 if the keycode or the action is none. */
uint32_t vd_event_code(enum vd_keycode keycode, enum vd_action action);

/* Converts scancodes of set 2 to set 1, from the start of `stream` to the start of `out`.
   Refused 22, 23 and 24: what was converted before stays, the refused code is not used. */
vd_converted vd_convert_set2(const uint8_t *stream, size_t stream_length, uint8_t *out, size_t out_length);

/* Writes the scancodes of set 1 that type an ASCII text.
   Refused 25 and 26, with the output as it was. */
vd_written vd_type_text(const uint8_t *text, size_t text_length, uint8_t *out, size_t out_length);

/* Brings recorded mouse bytes back into step: whole packets go to `packets`, the positions of bytes between them to `positions`.
   Refused 30 if one has no more room: what was written stays, and a pass from byte `used` on goes on. A cut last packet is left unused. */
vd_salvaged vd_salvage(enum vd_identity identity, const uint8_t *bytes, size_t bytes_length, uint8_t *packets, size_t packets_length,
    uint64_t *positions, size_t positions_length);

/* ---- preferences */

/* Writes preferences as bytes.
   Refused 28, then 23, with the output as it was; 255 if the version is not 1 or 2. */
vd_preferences_written vd_preferences_write(vd_preferences preferences, uint8_t *output, size_t output_length);

/* Reads the four fields that records of both versions have: version is 1 in the answer, and repeat 0.
   Refused 27, 28 and 29. */
vd_preferences_read vd_preferences_read_1(const uint8_t *input, size_t input_length);

/* Reads preferences of version 1 or 2.
   Refused 27, 28 and 29. */
vd_preferences_read vd_preferences_read_2(const uint8_t *input, size_t input_length);

/* Sets scancode set, rate, resolution, lamps and at version 2 the repeat byte, in this order, until a device refuses one.
   Refused 28 before anything is read or written; then 2 to 7, 11, 14, 15. */
vd_answer vd_preferences_apply(vd_preferences preferences, const uint8_t *script, size_t script_length, uint8_t *log, size_t log_length);

/* ---- reports */

/* A report of no session. */
vd_report vd_report_empty(void);

/* Adds a session: its events, a byte each (vd_event_code), and its mouse bytes, in packets of one identity.
   Refused 32 if a number would be outside its range, with the report as it was. */
vd_report_added vd_report_add(vd_report report, enum vd_identity identity, const uint8_t *events, size_t events_length,
    const uint8_t *mouse, size_t mouse_length);

/* The mean movement sideways, and up or down. */
vd_mean vd_report_mean_x(vd_report report);
vd_mean vd_report_mean_y(vd_report report);

/* A report in 64 bits with the same numbers. */
vd_long_report vd_report_widen(vd_report report);

/* A long report of no session. */
vd_long_report vd_long_report_empty(void);

/* Adds a session, as vd_report_add does, within the wider limits.
   Refused 32 if a number would be outside its range, with the report as it was. */
vd_long_added vd_long_report_add(vd_long_report report, enum vd_identity identity, const uint8_t *events, size_t events_length,
    const uint8_t *mouse, size_t mouse_length);

/* The mean movement sideways, and up or down. */
vd_mean vd_long_report_mean_x(vd_long_report report);
vd_mean vd_long_report_mean_y(vd_long_report report);

/* ---- the dispatcher, whose state is 149 numbers lent by the caller */

/* Makes a state fresh: a fresh record for this table, a mouse of this identity, and nobody served yet.
   Gives the refusal: 255, or 21 if it has not 149 numbers. Then they are as they were. */
enum vd_refusal vd_dispatcher_fresh(vd_dispatcher *dispatcher, size_t dispatcher_words, enum vd_keyboards keyboards,
    enum vd_profile profile, enum vd_identity identity);

/* Serves one source that waits, by turns: side 1, side 2, the mouse. Their scripts are passed whole: the state knows how far each is used.
   Refused as the call that was made; the turn is used then too. 21 without a source, and nothing changed, if the numbers are not 149,
   the mouse's identity is not 0, 3 or 4, or who was served last is above 3. vd_take(&dispatcher->handler, VD_HANDLER_WORDS) takes the
   events. */
vd_step vd_dispatcher_step(vd_dispatcher *dispatcher, size_t dispatcher_words, const uint8_t *first, size_t first_length,
    const uint8_t *second, size_t second_length, const uint8_t *mouse, size_t mouse_length, uint8_t *log, size_t log_length);

#ifdef __cplusplus
}
#endif

#endif
