/* Writes a greeting, and exits with its length. */
#include "start.h"

int main(void) {
    static const char text[] = "hello from C\n";
    put(text, sizeof text - 1);
    return sizeof text - 1;
}
