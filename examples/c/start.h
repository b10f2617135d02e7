/* What a program stands on without a library: where it begins, and the two services that it asks for. */

static long service(long number, long a, long b, long c) {
    register long a0 __asm__("a0") = a;
    register long a1 __asm__("a1") = b;
    register long a2 __asm__("a2") = c;
    register long a7 __asm__("a7") = number;
    __asm__ volatile("ecall" : "+r"(a0) : "r"(a1), "r"(a2), "r"(a7) : "memory");
    return a0;
}

static long put(const char *text, unsigned long count) {
    return service(64, 1, (long)text, (long)count);
}

int main(void);

void _start(void) {
    service(93, main(), 0, 0);
    __builtin_unreachable();
}
