/* Runs operations over live ports, as rust/vurdellow/src/drive.rs does: the library says what is to
   be done next, a read or a write, and the program does it and says what came.

   The ports here are those of a keyboard that is made up; main prints what is read and written. */
#include <stdio.h>
#include "vurdellow.h"

/* In a kernel: inb and outb. Operations poll a number of times and know no clock: a read of the
   status that follows another may first wait. */
static uint8_t read_port(uint32_t port);
static void write_port(uint32_t port, uint32_t value);

/* Runs an operation to its end: its refusal, VD_OK where it has none. What it gives is in the
   numbers (VD_OUTCOME_AT). */
static enum vd_refusal drive(uint64_t words[VD_STEP_WORDS], enum vd_operation operation, uint64_t argument)
{
    vd_request it = vd_begin(words, VD_STEP_WORDS, operation, argument);

    while (it.kind != VD_DONE) {
        uint32_t byte = 0;
        if (it.kind == VD_WRITE)
            write_port(it.port, it.byte);
        else
            byte = read_port(it.port);
        it = vd_next(words, VD_STEP_WORDS, byte);
    }
    return it.refusal;
}

/* The keyboard that is made up: it acknowledges each byte, but A is pressed before it has
   acknowledged the first. */
static uint8_t to_send[4];
static size_t sends;

static uint8_t read_port(uint32_t port)
{
    uint8_t byte = 0;
    size_t i;
    if (port == VD_STATUS_PORT) {
        byte = sends > 0;
    } else if (sends > 0) {
        byte = to_send[0];
        sends--;
        for (i = 0; i < sends; i++)
            to_send[i] = to_send[i + 1];
    }
    printf("read %02X: %02X\n", (unsigned)port, byte);
    return byte;
}

static void write_port(uint32_t port, uint32_t value)
{
    printf("write %02X to %02X\n", (unsigned)value, (unsigned)port);
    if (value == 0xED)
        to_send[sends++] = 0x1E;
    to_send[sends++] = 0xFA;
}

int main(void)
{
    uint64_t words[VD_STEP_WORDS];
    enum vd_refusal refusal = drive(words, VD_KEYBOARD_SET_LAMPS, VD_CAPS_LAMP);
    vd_kept kept = vd_step_kept(words, VD_STEP_WORDS);
    uint32_t i;

    printf("%s, thrown away:", vd_refusal_text(refusal));
    for (i = 0; i < kept.count; i++)
        printf(" %02X", kept.bytes[i]);
    puts("");
    return 0;
}
