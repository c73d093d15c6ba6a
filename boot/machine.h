/* The machine as the kernel sees it: ports, the serial line, the screen. None of this is proved. */
#ifndef MACHINE_H
#define MACHINE_H

#include <stddef.h>
#include <stdint.h>

static inline uint8_t in8(uint16_t port)
{
    uint8_t value;
    __asm__ volatile("inb %1, %0" : "=a"(value) : "Nd"(port) : "memory");
    return value;
}

static inline void out8(uint16_t port, uint8_t value)
{
    __asm__ volatile("outb %0, %1" : : "a"(value), "Nd"(port) : "memory");
}

/* ---- a line of text that is put together, as much of it as there is room for */

typedef struct text {
    char letters[480];
    size_t length;
} text;

void put(text *to, char letter);
void put_text(text *to, const char *from);
void put_hex(text *to, uint32_t number, unsigned digits);
void put_number(text *to, int64_t number);
void put_bytes(text *to, const uint8_t *from, size_t length); /* in hexadecimal; '-' for none */

/* ---- the serial line */

void serial_begin(void);
void serial_line(const char *letters);

/* ---- the screen: 25 rows of 80 letters in colours, at 0xB8000 */

enum { BLACK, BLUE, GREEN, CYAN, RED, MAGENTA, BROWN, GREY, DARK, BRIGHT_BLUE, BRIGHT_GREEN, BRIGHT_CYAN, BRIGHT_RED, PINK, YELLOW, WHITE };
#define ON(front, back) ((back) << 4 | (front))
enum { ROWS = 25, COLUMNS = 80 };

void screen_begin(void);
void cell(unsigned row, unsigned column, uint8_t letter, unsigned colour);
unsigned write(unsigned row, unsigned column, unsigned colour, const char *letters); /* gives the column behind it */
void blank(unsigned row, unsigned from, unsigned to, unsigned colour);
uint16_t cell_at(unsigned row, unsigned column);
void cell_put(unsigned row, unsigned column, uint16_t letter_and_colour);

#endif
