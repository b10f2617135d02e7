/* Sorts numbers of a linear congruence in place, by a quicksort that calls itself, and writes whether they rise. Exits with 0
   where they do. */
#include "start.h"

enum { COUNT = 3000 };

static unsigned numbers[COUNT];

static void sort(unsigned *low, unsigned *high) {
    while (high - low > 1) {
        unsigned pivot = low[(high - low) / 2], *i = low, *j = high - 1;
        while (i <= j) {
            while (*i < pivot)
                i++;
            while (*j > pivot)
                j--;
            if (i <= j) {
                unsigned other = *i;
                *i++ = *j;
                *j-- = other;
            }
        }
        sort(low, j + 1);
        low = i;
    }
}

int main(void) {
    unsigned x = 2026;
    for (unsigned i = 0; i < COUNT; i++) {
        x = x * 1664525u + 1013904223u;
        numbers[i] = x;
    }
    sort(numbers, numbers + COUNT);
    for (unsigned i = 1; i < COUNT; i++)
        if (numbers[i - 1] > numbers[i]) {
            put("not sorted\n", 11);
            return 1;
        }
    put("sorted\n", 7);
    return 0;
}
