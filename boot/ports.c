/* Live ports: the reads and writes that ports.h tells of. None of this is proved. */
#include "ports.h"
#include "machine.h"

/* How long a device may be silent: a second, and a reset's self test takes up to three quarters
   of one. A read of port 80, which has nothing to read, takes about a microsecond on an ISA
   port. */
enum { MOST_SILENCE = 1000000, NOTHING = 0x80 };

/* Bits of the status: a byte can be read; a byte that was written is not yet taken. */
enum { FULL = 0x01, BUSY = 0x02 };

traffic traffic_so_far;

/* What the handler call wants, which is made again where it has a byte more. */
static vd_request handled(exchange *it, int has_more)
{
    vd_request next = { VD_DONE, 0, 0, VD_OK };
    const uint8_t *pair = it->log + 2 * it->written;
    if (has_more)
        it->call = vd_handle(it->record, VD_HANDLER_WORDS, VD_SIDE_1, it->script, it->read,
                             it->log, sizeof it->log);
    if (it->written < it->call.pairs)
        next.kind = VD_WRITE, next.port = pair[0], next.byte = pair[1];
    else if (it->call.refusal == VD_SCRIPT_ENDS && it->read < sizeof it->script)
        next.kind = VD_READ, next.port = it->call.port;
    else
        next.refusal = it->call.refusal;
    return next;
}

void exchange_begin(exchange *it, enum vd_operation operation, uint64_t argument)
{
    it->record = NULL, it->read = it->written = 0;
    it->wanted = vd_begin(it->words, VD_STEP_WORDS, operation, argument);
}

void exchange_handle(exchange *it, vd_handler *record)
{
    it->record = record, it->read = it->written = 0;
    it->wanted = handled(it, 1);
}

void exchange_step(exchange *it)
{
    uint8_t port = (uint8_t)it->wanted.port, byte = (uint8_t)it->wanted.byte;
    int is_write = it->wanted.kind == VD_WRITE;
    if (is_write) {
        if (2 * it->written + 1 < sizeof it->log)
            it->log[2 * it->written] = port, it->log[2 * it->written + 1] = byte, it->written++;
        traffic_so_far.writes++;
        out8(port, byte);
    } else {
        byte = in8(port);
        if (it->read < sizeof it->script)
            it->script[it->read++] = byte;
        traffic_so_far.reads++;
    }
    saw(port, byte, is_write);
    it->wanted = it->record ? handled(it, !is_write) : vd_next(it->words, VD_STEP_WORDS, byte);
}

int exchange_goes_on(exchange *it, unsigned polls)
{
    while (it->wanted.kind == VD_READ) {
        if ((in8(VD_STATUS_PORT) & (FULL | BUSY)) == 0 && polls-- == 0)
            return 0;
        exchange_step(it);
    }
    if (it->wanted.kind == VD_WRITE)
        exchange_step(it);
    return it->wanted.kind == VD_DONE;
}

/* Waits a sixteenth of the silence so far, so that 255 polls, the most before a byte is sent,
   last long enough: whether time was left. */
static int waits(uint32_t *silence)
{
    uint32_t n = *silence / 16 + 1;
    if (*silence >= MOST_SILENCE)
        return 0;
    for (*silence += n; n > 0; n--)
        in8(NOTHING);
    return 1;
}

void exchange_finish(exchange *it)
{
    uint32_t silence = 0;
    int polled = 0; /* whether the last that was done is a read of the status */
    for (; it->wanted.kind != VD_DONE; exchange_step(it)) {
        if (it->wanted.kind == VD_WRITE) {
            silence = 0, polled = 0;
        } else if (it->wanted.port == VD_STATUS_PORT) {
            if (polled)
                waits(&silence);
            polled = 1;
        } else {
            /* Initialisation, packets and resets read without asking. */
            while (!(in8(VD_STATUS_PORT) & FULL) && waits(&silence))
                ;
            silence = silence < MOST_SILENCE ? 0 : silence, polled = 0;
        }
    }
}
