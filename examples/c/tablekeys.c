/* Lists the key events of the scancodes on standard input, as the program tablekeys does: keycode, P or R, flags, ASCII.
   The first 65,536 bytes are the script; more are ignored. */
#include <stdio.h>
#include "vurdellow.h"

static uint8_t script[65536];

static void print_event(vd_taken event)
{
    uint32_t character = vd_character(event.keycode, event.flags);
    printf("%02X %c %03X ", (unsigned)event.keycode, event.action == VD_PRESSED ? 'P' : 'R', (unsigned)event.flags);
    if (character == 0)
        puts("-");
    else
        printf("%u\n", (unsigned)character);
}

int main(void)
{
    vd_handler handler;
    size_t length = fread(script, 1, sizeof script, stdin), used = 0;

    vd_handler_fresh(&handler, VD_HANDLER_WORDS, VD_ONE_KEYBOARD, VD_ANY_KEYS);
    /* Until the script is used, and no byte waits that a lamp exchange caught. */
    while (used < length || handler.words[VD_FIRST_WAITING] > 0) {
        uint8_t log[VD_HANDLER_LOG];
        vd_handled call = vd_handle(&handler, VD_HANDLER_WORDS, VD_SIDE_1, script + used, length - used, log, sizeof log);
        vd_taken event;
        if (call.refusal != VD_OK)
            printf("refused %u\n", (unsigned)call.refusal);
        /* The script ends inside a lamp exchange. */
        if (call.refusal == VD_SCRIPT_ENDS)
            break;
        used += call.used;
        event = vd_take(&handler, VD_HANDLER_WORDS);
        if (event.side != 0)
            print_event(event);
    }
    return ferror(stdin) || fflush(stdout) != 0;
}
