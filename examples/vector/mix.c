/* Two sounds of 500 samples of 16 bits, mixed: half of the one and of the other rounded, twice that with saturation. */
#include "text.h"

enum { COUNT = 500 };

static short left[COUNT], right[COUNT], mixed[COUNT];

static void mix(void) {
    const short *a = left, *b = right;
    short *c = mixed;
    __asm__ volatile("csrwi vxrm, 0");
    for (unsigned long vl, n = COUNT; n > 0; n -= vl, a += vl, b += vl, c += vl) {
        vl = vsetvl_e16m4(n);
        vint16m4_t half = vaadd_vv_i16m4(vle16_v_i16m4(a, vl), vle16_v_i16m4(b, vl), vl);
        vse16_v_i16m4(c, vsadd_vv_i16m4(half, half, vl), vl);
    }
}

int main(void) {
    unsigned long full = 0, sum = 0;
    for (int i = 0; i < COUNT; i++) {
        left[i] = (short)(i * 131 - 32768);
        right[i] = (short)(i * i - 20000);
    }
    mix();
    for (int i = 0; i < COUNT; i++) {
        full += mixed[i] == 32767 || mixed[i] == -32768;
        sum += (unsigned short)mixed[i] * (unsigned long)(i + 1);
    }
    put_numbers(full, sum);
    return 0;
}
