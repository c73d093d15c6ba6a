/* Interrupts 1 (keyboard), 12 (mouse) and 0 (the timer), each on a stack of its own. */
#ifndef INTERRUPTS_H
#define INTERRUPTS_H

#include <stddef.h>
#include <stdint.h>

/* Lets them come: each call of one of the three is made with interrupts off and the SSE state saved. */
void interrupts_begin(void (*keyboard)(void), void (*mouse)(void), void (*timer)(void));

/* Keeps them away, and lets them come again. */
static inline void interrupts_off(void) { __asm__ volatile("cli" : : : "memory"); }
static inline void interrupts_on(void) { __asm__ volatile("sti" : : : "memory"); }

/* Sleeps until one has come; they are off before and after it. */
static inline void interrupts_wait(void) { __asm__ volatile("sti\n hlt\n cli" : : : "memory"); }

/* The most bytes of any of these stacks that were used so far. */
size_t interrupts_stack_used(void);

#endif
