/* Ports, the serial line and the screen, and the four functions of a C library that the archive and gcc ask for. None of this is proved. */
#include "machine.h"

/* ---- the C library's */

void *memset(void *to, int byte, size_t n)
{
    void *at = to;
    __asm__ volatile("rep stosb" : "+D"(at), "+c"(n) : "a"(byte) : "memory");
    return to;
}

void *memcpy(void *to, const void *from, size_t n)
{
    void *at = to;
    __asm__ volatile("rep movsb" : "+D"(at), "+S"(from), "+c"(n) : : "memory");
    return to;
}

void *memmove(void *to, const void *from, size_t n)
{
    uint8_t *t = to;
    const uint8_t *f = from;
    if (t <= f || t >= f + n)
        return memcpy(to, from, n);
    while (n--)
        t[n] = f[n];
    return to;
}

int memcmp(const void *one, const void *other, size_t n)
{
    const uint8_t *a = one, *b = other;
    for (; n; n--, a++, b++)
        if (*a != *b)
            return *a - *b;
    return 0;
}

int bcmp(const void *one, const void *other, size_t n)
{
    return memcmp(one, other, n);
}

/* ---- text */

static const char digits[] = "0123456789ABCDEF";

void put(text *to, char letter)
{
    if (to->length + 1 < sizeof to->letters)
        to->letters[to->length++] = letter, to->letters[to->length] = 0;
}

void put_text(text *to, const char *from)
{
    while (*from)
        put(to, *from++);
}

void put_hex(text *to, uint32_t number, unsigned wide)
{
    while (wide--)
        put(to, digits[number >> 4 * wide & 15]);
}

void put_number(text *to, int64_t number)
{
    char back[20];
    unsigned i = 0;
    uint64_t rest = number < 0 ? 0 - (uint64_t)number : (uint64_t)number;
    if (number < 0)
        put(to, '-');
    do
        back[i++] = (char)('0' + rest % 10);
    while (rest /= 10);
    while (i)
        put(to, back[--i]);
}

void put_bytes(text *to, const uint8_t *from, size_t length)
{
    size_t i;
    if (length == 0)
        put(to, '-');
    for (i = 0; i < length; i++)
        put_hex(to, from[i], 2);
}

/* ---- the serial line: port 3F8, 115,200 bits a second */

enum { SERIAL = 0x3F8 };

void serial_begin(void)
{
    out8(SERIAL + 1, 0), out8(SERIAL + 3, 0x80), out8(SERIAL, 1), out8(SERIAL + 1, 0);
    out8(SERIAL + 3, 3), out8(SERIAL + 2, 0xC7), out8(SERIAL + 4, 3);
}

static void serial(char letter)
{
    unsigned i;
    for (i = 0; i < 100000 && !(in8(SERIAL + 5) & 0x20); i++)
        ;
    out8(SERIAL, (uint8_t)letter);
}

void serial_line(const char *letters)
{
    while (*letters)
        serial(*letters++);
    serial('\r'), serial('\n');
}

/* ---- the screen */

static volatile uint16_t *const screen = (volatile uint16_t *)0xB8000;

void screen_begin(void)
{
    unsigned i;
    out8(0x3D4, 0x0A), out8(0x3D5, 0x20); /* no cursor */
    for (i = 0; i < ROWS * COLUMNS; i++)
        screen[i] = ON(GREY, BLACK) << 8 | ' ';
}

void cell(unsigned row, unsigned column, uint8_t letter, unsigned colour)
{
    cell_put(row, column, (uint16_t)(colour << 8 | letter));
}

uint16_t cell_at(unsigned row, unsigned column)
{
    return row < ROWS && column < COLUMNS ? screen[COLUMNS * row + column] : 0;
}

void cell_put(unsigned row, unsigned column, uint16_t letter_and_colour)
{
    if (row < ROWS && column < COLUMNS)
        screen[COLUMNS * row + column] = letter_and_colour;
}

unsigned write(unsigned row, unsigned column, unsigned colour, const char *letters)
{
    while (*letters)
        cell(row, column++, (uint8_t)*letters++, colour);
    return column;
}

void blank(unsigned row, unsigned from, unsigned to, unsigned colour)
{
    for (; from < to; from++)
        cell(row, from, ' ', colour);
}
