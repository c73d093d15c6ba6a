/* Interrupts 0, 1 and 12, each on a stack of its own by the processor's interrupt stack table (IST).

   The library uses the red zone, the 128 bytes below its stack pointer, and SSE registers. An interrupt on the stack that a call of the library
   runs on would write over that red zone, so the three have stacks of their own; and they save the SSE state, since they call the library too. */
#include "interrupts.h"
#include "machine.h"

enum { CODE = 8, DATA = 16, TASK = 24, PIC_1 = 0x20, PIC_2 = 0xA0, FIRST_VECTOR = 32, TIMER_LINE = 0, KEYBOARD_LINE = 1, SECOND_PIC_LINE = 2, MOUSE_LINE = 12, STACK = 16384, UNUSED = 0xA5, INTERRUPTS_HERE = 3 };

static uint8_t stacks[INTERRUPTS_HERE][STACK] __attribute__((aligned(16)));
static uint32_t task[26] __attribute__((aligned(16)));
static uint64_t gdt[5] __attribute__((aligned(16)));
static uint64_t idt[2 * 256] __attribute__((aligned(16)));

void (*interrupt_calls[INTERRUPTS_HERE])(void);
extern void keyboard_entry(void), mouse_entry(void), timer_entry(void);

/* Each entry: the registers that C may change, then the SSE state, then the call, and all of it back. */
__asm__(".text\n"
        "keyboard_entry:\n"
        "  push %rax\n"
        "  mov interrupt_calls(%rip), %rax\n"
        "  jmp 1f\n"
        "mouse_entry:\n"
        "  push %rax\n"
        "  mov interrupt_calls+8(%rip), %rax\n"
        "  jmp 1f\n"
        "timer_entry:\n"
        "  push %rax\n"
        "  mov interrupt_calls+16(%rip), %rax\n"
        "1: push %rcx\n push %rdx\n push %rsi\n push %rdi\n push %r8\n push %r9\n push %r10\n push %r11\n push %rbp\n"
        "  mov %rsp, %rbp\n"
        "  sub $512, %rsp\n"
        "  and $-16, %rsp\n"
        "  fxsave64 (%rsp)\n"
        "  cld\n"
        "  call *%rax\n"
        "  fxrstor64 (%rsp)\n"
        "  mov %rbp, %rsp\n"
        "  pop %rbp\n pop %r11\n pop %r10\n pop %r9\n pop %r8\n pop %rdi\n pop %rsi\n pop %rdx\n pop %rcx\n pop %rax\n"
        "  iretq\n");

static void gate(unsigned vector, void (*entry)(void), unsigned stack)
{
    uint64_t at = (uint64_t)entry;
    idt[2 * vector] = (at & 0xFFFF) | (uint64_t)CODE << 16 | (uint64_t)stack << 32 | 0x8Eull << 40 | (at >> 16 & 0xFFFF) << 48;
    idt[2 * vector + 1] = at >> 32;
}

static void load(const char *which, const void *table, size_t size)
{
    struct {
        uint16_t size;
        uint64_t at;
    } __attribute__((packed)) here = { (uint16_t)(size - 1), (uint64_t)table };
    if (*which == 'g')
        __asm__ volatile("lgdt %0" : : "m"(here));
    else
        __asm__ volatile("lidt %0" : : "m"(here));
}

/* Both interrupt controllers: vectors 32 to 47, and the lines of timer, keyboard, mouse and second controller alone. */
static void lines_begin(void)
{
    unsigned wanted = 1u << TIMER_LINE | 1u << KEYBOARD_LINE | 1u << SECOND_PIC_LINE | 1u << MOUSE_LINE;
    out8(PIC_1, 0x11), out8(PIC_2, 0x11);
    out8(PIC_1 + 1, FIRST_VECTOR), out8(PIC_2 + 1, FIRST_VECTOR + 8);
    out8(PIC_1 + 1, 1 << SECOND_PIC_LINE), out8(PIC_2 + 1, SECOND_PIC_LINE);
    out8(PIC_1 + 1, 1), out8(PIC_2 + 1, 1);
    out8(PIC_1 + 1, (uint8_t)~wanted), out8(PIC_2 + 1, (uint8_t)(~wanted >> 8));
}

static void (*handlers[INTERRUPTS_HERE])(void);

static void keyboard_came(void)
{
    handlers[0]();
    out8(PIC_1, 0x20);
}

static void mouse_came(void)
{
    handlers[1]();
    out8(PIC_2, 0x20), out8(PIC_1, 0x20);
}

static void timer_came(void)
{
    handlers[2]();
    out8(PIC_1, 0x20);
}

void interrupts_begin(void (*keyboard)(void), void (*mouse)(void), void (*timer)(void))
{
    uint64_t at = (uint64_t)task;
    unsigned i, j;
    handlers[0] = keyboard, handlers[1] = mouse, handlers[2] = timer;
    interrupt_calls[0] = keyboard_came, interrupt_calls[1] = mouse_came, interrupt_calls[2] = timer_came;
    for (i = 0; i < INTERRUPTS_HERE; i++) {
        uint64_t top = (uint64_t)(stacks[i] + STACK);
        for (j = 0; j < STACK; j++)
            stacks[i][j] = UNUSED;
        task[9 + 2 * i] = (uint32_t)top, task[10 + 2 * i] = (uint32_t)(top >> 32); /* IST 1, 2 and 3 */
    }
    gdt[1] = 0x00AF9A000000FFFF, gdt[2] = 0x00CF92000000FFFF;
    gdt[3] = (sizeof task - 1) | (at & 0xFFFFFF) << 16 | 0x89ull << 40 | (at >> 24 & 0xFF) << 56, gdt[4] = at >> 32;
    load("gdt", gdt, sizeof gdt);
    __asm__ volatile("ltr %w0" : : "r"(TASK));
    gate(FIRST_VECTOR + KEYBOARD_LINE, keyboard_entry, 1);
    gate(FIRST_VECTOR + MOUSE_LINE, mouse_entry, 2);
    gate(FIRST_VECTOR + TIMER_LINE, timer_entry, 3);
    load("idt", idt, sizeof idt);
    lines_begin();
}

size_t interrupts_stack_used(void)
{
    size_t most = 0;
    unsigned i;
    for (i = 0; i < INTERRUPTS_HERE; i++) {
        size_t unused = 0;
        while (unused < STACK && stacks[i][unused] == UNUSED)
            unused++;
        most = STACK - unused > most ? STACK - unused : most;
    }
    return most;
}
