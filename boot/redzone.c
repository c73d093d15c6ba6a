/* Whether an interrupt may come in the middle of a call on the stack that the call runs on. The timer interrupts as often as it can, on a stack of
   its own or, with STACK_OF_ITS_OWN 0, on the one that runs, while the same two calls are made over and over and must always give the same. */
#include <stddef.h>
#include <stdint.h>
#include "machine.h"
#include "vurdellow.h"

enum { CALLS = 50000, TASK = 24, TIMER_VECTOR = 32, EXIT = 0xF4 };

extern void timer_entry(void);
uint64_t ticks;
static uint64_t idt[2 * 256] __attribute__((aligned(16)));
static uint8_t own_stack[4096] __attribute__((aligned(16)));
static uint32_t task[26] __attribute__((aligned(16)));
static uint64_t gdt[5] __attribute__((aligned(16)));

/* The interrupt itself: it uses eight bytes of its stack beside what the processor puts there. */
__asm__(".text\ntimer_entry:\n push %rax\n incq ticks(%rip)\n mov $0x20, %al\n out %al, $0x20\n pop %rax\n iretq\n");

static void timer_begin(void)
{
    uint64_t at = (uint64_t)timer_entry, t = (uint64_t)task, top = (uint64_t)(own_stack + sizeof own_stack);
    struct {
        uint16_t size;
        uint64_t at;
    } __attribute__((packed)) table;
    task[9] = (uint32_t)top, task[10] = (uint32_t)(top >> 32); /* IST 1 */
    gdt[1] = 0x00AF9A000000FFFF, gdt[2] = 0x00CF92000000FFFF;
    gdt[3] = (sizeof task - 1) | (t & 0xFFFFFF) << 16 | 0x89ull << 40 | (t >> 24 & 0xFF) << 56, gdt[4] = t >> 32;
    table.size = sizeof gdt - 1, table.at = (uint64_t)gdt;
    __asm__ volatile("lgdt %0" : : "m"(table));
    __asm__ volatile("ltr %w0" : : "r"(TASK));
    idt[2 * TIMER_VECTOR] = (at & 0xFFFF) | 8ull << 16 | (uint64_t)STACK_OF_ITS_OWN << 32 | 0x8Eull << 40 | (at >> 16 & 0xFFFF) << 48;
    idt[2 * TIMER_VECTOR + 1] = at >> 32;
    table.size = sizeof idt - 1, table.at = (uint64_t)idt;
    __asm__ volatile("lidt %0" : : "m"(table));
    out8(0x20, 0x11), out8(0xA0, 0x11), out8(0x21, TIMER_VECTOR), out8(0xA1, TIMER_VECTOR + 8);
    out8(0x21, 4), out8(0xA1, 2), out8(0x21, 1), out8(0xA1, 1), out8(0x21, 0xFE), out8(0xA1, 0xFF);
    out8(0x43, 0x34), out8(0x40, 60), out8(0x40, 0); /* some 20,000 a second */
    __asm__ volatile("sti");
}

/* Whether two runs of the same bytes are the same. */
static int same(const void *one, const void *other, size_t length)
{
    const uint8_t *a = one, *b = other;
    size_t i;
    for (i = 0; i < length && a[i] == b[i]; i++)
        ;
    return i == length;
}

/* A keyboard that sends thirty bytes of keys before it acknowledges either byte of a lamp exchange. */
enum { KEYS = 30, SCRIPT = 2 * (1 + 2 * (KEYS + 1)) };

static size_t script_of(uint8_t *script)
{
    size_t n = 0;
    unsigned byte, key;
    for (byte = 0; byte < 2; byte++) {
        script[n++] = 0; /* there is room for the byte */
        for (key = 0; key <= KEYS; key++)
            script[n++] = 1, script[n++] = (uint8_t)(key < KEYS ? 0x10 + key : 0xFA);
    }
    return n;
}

void kernel(void)
{
    static uint8_t script[SCRIPT], log[VD_LOG_BYTES];
    static vd_kept lamps, first_lamps;
    static vd_long_report wide, first_wide;
    uint64_t i, differ = 0;
    uint32_t j;
    size_t length = script_of(script);
    vd_report report = vd_report_empty();
    text it = { .length = 0 };
    for (j = 0; j < VD_REPORT_KEYS; j++)
        report.presses[j] = 1000 + j;
    first_wide = vd_report_widen(report);
    first_lamps = vd_keyboard_set_lamps(VD_CAPS_LAMP, script, length, log, sizeof log);
    serial_begin();
    timer_begin();
    for (i = 0; i < CALLS; i++) {
        lamps = vd_keyboard_set_lamps(VD_CAPS_LAMP, script, length, log, sizeof log);
        wide = vd_report_widen(report);
        differ += !same(&lamps, &first_lamps, sizeof lamps) || !same(&wide, &first_wide, sizeof wide);
    }
    __asm__ volatile("cli");
    put_number(&it, CALLS), put_text(&it, " calls, "), put_number(&it, (int64_t)ticks), put_text(&it, " interrupts on ");
    put_text(&it, STACK_OF_ITS_OWN ? "a stack of their own: " : "the stack of the call: "), put_number(&it, (int64_t)differ), put_text(&it, " answers differ");
    if (first_lamps.refusal != VD_OK || first_lamps.count != VD_KEPT_BYTES)
        put_text(&it, ", and the lamps were not set");
    serial_line(it.letters);
    out8(EXIT, 0); /* ends QEMU */
}
