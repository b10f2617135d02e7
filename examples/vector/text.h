/* Lines of numbers, for the programs here. */
#include <riscv_vector.h>

#include "../c/start.h"

/* The decimal digits of a number at the end of the text so far, and where the text ends then. */
static char *digits(char *end, unsigned long n) {
    if (n >= 10)
        end = digits(end, n / 10);
    *end = (char)('0' + n % 10);
    return end + 1;
}

/* Writes a line of two numbers. */
static void put_numbers(unsigned long a, unsigned long b) {
    static char line[48];
    char *end = digits(line, a);
    *end++ = ' ';
    end = digits(end, b);
    *end++ = '\n';
    put(line, (unsigned long)(end - line));
}
