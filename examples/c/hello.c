// Prints a line by the UART, and ends with exit number 0.
#include "board.h"

int main(void) {
    put_text("Hello from C.\n");
    return 0;
}
