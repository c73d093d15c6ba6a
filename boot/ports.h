/* Live ports for the library's operations a byte at a time: the library says what is to be done
   next, and this does it. A handler call has no such form. It goes on by being made again on all
   bytes so far: it changes nothing until it has them all (docs/CUT-SCRIPTS.md). */
#ifndef PORTS_H
#define PORTS_H

#include <stddef.h>
#include <stdint.h>
#include "vurdellow.h"

enum { SCRIPT_ROOM = 4096 };

typedef struct exchange {
    uint64_t words[VD_STEP_WORDS]; /* an operation .. */
    vd_handler *record;            /* .. or a handler call on this record, .. */
    vd_handled call;               /* .. which answered this last */
    vd_request wanted; /* VD_DONE: it has ended */
    /* What was read and written, as much as there is room for: for the serial line, and a
       handler call's script and log. */
    uint8_t script[SCRIPT_ROOM], log[VD_LOG_BYTES];
    size_t read, written;
} exchange;

/* What all exchanges came to. */
typedef struct traffic {
    uint64_t reads, writes;
} traffic;
extern traffic traffic_so_far;

/* Told of every byte that crosses a port. */
void saw(uint8_t port, uint8_t value, int is_write);

/* Begins an operation. */
void exchange_begin(exchange *it, enum vd_operation operation, uint64_t argument);

/* Begins a handler call for the first side. */
void exchange_handle(exchange *it, vd_handler *record);

/* Does the one read or write that is wanted. */
void exchange_step(exchange *it);

/* Goes on until it has written, since an answer brings an interrupt of its own, or has found so
   many times that no byte is there and is to look again: whether the operation has ended. It
   waits for nothing. */
int exchange_goes_on(exchange *it, unsigned polls);

/* Goes on to the end, and waits between polls. */
void exchange_finish(exchange *it);

#endif
