// Counts the primes below 10000 by a sieve of bytes, prints their number by the UART, and ends with exit number 0.
#include "board.h"

enum { LIMIT = 10000 };

static uint8_t is_composite[LIMIT];

int main(void) {
    unsigned primes = 0;
    for (unsigned n = 2; n < LIMIT; n++) {
        if (is_composite[n])
            continue;
        primes++;
        for (unsigned multiple = n * n; multiple < LIMIT; multiple += n)
            is_composite[multiple] = 1;
    }
    put_number(primes);
    put_text(" primes\n");
    return 0;
}
