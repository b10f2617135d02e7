/* Computes a table of how many steps the numbers from 1 on take to 1 (half where even, else three times and one), keeps it in
   static memory, and writes the first lines and the number with most steps. Exits with 0. */
#include "start.h"

enum { COUNT = 2000, LINES = 12 };

static unsigned short steps[COUNT + 1];
static char line[32];

static unsigned steps_of(unsigned long n) {
    unsigned count = 0;
    while (n != 1) {
        if (n <= COUNT && steps[n] != 0)
            return count + steps[n];
        n = n % 2 == 0 ? n / 2 : 3 * n + 1;
        count++;
    }
    return count;
}

/* The decimal digits of a number at the end of the text so far, and where the text ends then: as deep as there are digits. */
static char *digits(char *end, unsigned n) {
    if (n >= 10)
        end = digits(end, n / 10);
    *end = (char)('0' + n % 10);
    return end + 1;
}

static void put_line(unsigned n, unsigned count) {
    char *end = digits(line, n);
    *end++ = ' ';
    end = digits(end, count);
    *end++ = '\n';
    put(line, (unsigned long)(end - line));
}

int main(void) {
    unsigned most = 1;
    for (unsigned n = 2; n <= COUNT; n++) {
        steps[n] = (unsigned short)steps_of(n);
        if (steps[n] > steps[most])
            most = n;
    }
    for (unsigned n = 1; n <= LINES; n++)
        put_line(n, steps[n]);
    put_line(most, steps[most]);
    return 0;
}
