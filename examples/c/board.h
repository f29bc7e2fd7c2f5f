// What a guest reaches of the machine: the UART. The exit number is what main returns (start.S).
#ifndef BOARD_H
#define BOARD_H

#include <stdint.h>

static volatile uint8_t *const uart = (volatile uint8_t *)0x10000000;

static inline void put_char(char c) { *uart = (uint8_t)c; }

static inline void put_text(const char *text) {
    while (*text)
        put_char(*text++);
}

static inline void put_number(unsigned n) {
    if (n >= 10)
        put_number(n / 10);
    put_char((char)('0' + n % 10));
}

#endif
