// Prints the primes below 100 by the UART, and ends with their number as the exit number.
#include "board.h"

enum { LIMIT = 100 };

static uint8_t is_composite[LIMIT];

int main(void) {
    int primes = 0;
    for (unsigned n = 2; n < LIMIT; n++) {
        if (is_composite[n])
            continue;
        primes++;
        put_number(n);
        put_char(n == 97 ? '\n' : ' ');
        for (unsigned multiple = n * n; multiple < LIMIT; multiple += n)
            is_composite[multiple] = 1;
    }
    return primes;
}
