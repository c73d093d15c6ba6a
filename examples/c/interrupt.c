/* A kernel's keyboard interrupt over the library, with no thread and no waiting.

   Each byte of the keyboard brings an interrupt, which begins a call of the handler. The call asks
   for the byte, and for every key but a lock that is all. A lock also tells the keyboard its lamps,
   which takes some milliseconds. What the call asks for and can be done at once, the interrupt
   does; when the keyboard's answer isn't there yet it returns, and the next interrupt goes on. Keys
   among the answers are not lost: they wait in the record, and are handled behind the lock. The
   timer polls, so that a keyboard that says nothing is given up.

   The call takes whatever byte comes, a mouse's too. So a mouse that sends packets is kept quiet
   meanwhile, by the controller's commands A7 and A8 or by vd_mouse_stop_packets.

   One record has one caller: here the two interrupts, which don't interrupt each other. Whoever
   takes events keeps them away for as long. The machine, at the end, is made up, so that this
   runs by itself. */
#include <stdio.h>
#include "vurdellow.h"

/* What the kernel has. */
static uint8_t inb(uint32_t port);
static void outb(uint32_t port, uint32_t value);

/* Bits of the status: a byte can be read, and it is the mouse's; a byte that was written is not
   yet taken. */
enum { FULL = 0x01, BUSY = 0x02, OF_MOUSE = 0x20 };

static vd_handler keyboard;

/* A call: the bytes that it has read, and how many pairs of its log were written to the ports.
   It goes on by being made again on all bytes so far: it changes nothing until it has them all
   (docs/CUT-SCRIPTS.md). */
static struct {
    uint8_t script[64], log[VD_HANDLER_LOG];
    size_t read, written;
    vd_handled answer;
    int goes_on;
} call;

static void make(void)
{
    call.answer = vd_handle(&keyboard, VD_HANDLER_WORDS, VD_SIDE_1, call.script, call.read,
                            call.log, sizeof call.log);
}

/* Does what the call asks for, until it has found so many times that nothing is there, and asks
   again. */
static void go_on(unsigned polls)
{
    for (;;) {
        uint8_t byte;
        for (; call.written < call.answer.pairs; call.written++)
            outb(call.log[2 * call.written], call.log[2 * call.written + 1]);
        /* 0, or 19 (no such key), 20 (128 events wait and this one was lost); 2 if the script is
           used up: then the lock was not pressed. */
        call.goes_on = call.answer.refusal == VD_SCRIPT_ENDS && call.read < sizeof call.script;
        if (!call.goes_on)
            return;
        byte = inb(call.answer.port);
        if (call.answer.port == VD_STATUS_PORT && (byte & (FULL | BUSY)) == 0 && polls-- == 0)
            return;
        call.script[call.read++] = byte;
        make();
    }
}

/* Whether the call has ended and a byte waits, which is handled next. */
static int one_waits(void)
{
    return !call.goes_on && call.answer.refusal != VD_SCRIPT_ENDS && keyboard.words[VD_FIRST_WAITING] > 0;
}

/* Begins a call and goes on with it, and with the bytes that wait when it has ended. */
static void begin(void)
{
    do {
        call.read = call.written = 0;
        make();
        go_on(1);
    } while (one_waits());
}

/* Goes on with the call, if there is one: whether one was. */
static int goes_on(void)
{
    if (!call.goes_on)
        return 0;
    go_on(1);
    if (one_waits())
        begin();
    return 1;
}

/* Called at each interrupt of the keyboard. One may be left over from a byte that a call has
   read. */
static void keyboard_interrupt(void)
{
    if (!goes_on() && (inb(VD_STATUS_PORT) & (FULL | OF_MOUSE)) == FULL)
        begin();
}

/* Called 100 times a second: a keyboard that says nothing is given up after some 60 polls. */
static void timer_interrupt(void)
{
    goes_on();
}

/* The machine that is made up: a keyboard that sends these bytes, and whose answer to ED comes
   behind the next of them. It sends a byte when the last was read, and brings an interrupt; it
   doesn't answer the last lamps at all. */
static uint8_t sends[32] = { 0x1E, 0x9E, 0x3A, 0x1E, 0x9E, 0xBA, 0x30, 0xB0, 0x45 };
static size_t sent, sending = 9;
static int is_full;

static uint8_t inb(uint32_t port)
{
    if (port == VD_STATUS_PORT)
        return is_full ? FULL : 0;
    is_full = 0;
    return sends[sent - 1];
}

static void outb(uint32_t port, uint32_t value)
{
    size_t at = value == 0xED ? sent + 1 : sent, i;
    printf("write %02X to %02X\n", (unsigned)value, (unsigned)port);
    if (sent == sending)
        return;
    for (i = sending++; i > at; i--)
        sends[i] = sends[i - 1];
    sends[at] = 0xFA;
}

int main(void)
{
    vd_taken event;
    unsigned ticks = 0;

    vd_handler_fresh(&keyboard, VD_HANDLER_WORDS, VD_ONE_KEYBOARD, VD_ANY_KEYS);
    while (sent < sending) {
        sent++, is_full = 1;
        keyboard_interrupt();
    }
    for (; call.goes_on; ticks++)
        timer_interrupt();
    printf("refusal %u after %u ticks\n", (unsigned)call.answer.refusal, ticks);
    while ((event = vd_take(&keyboard, VD_HANDLER_WORDS)).side != 0)
        printf("%02X %s %03X\n", (unsigned)event.keycode,
               event.action == VD_PRESSED ? "pressed" : "released", (unsigned)event.flags);
    return 0;
}
