/* The dot product of two lists of 300 numbers of 32 bits, by products of twice the width and a sum of those. */
#include "text.h"

enum { COUNT = 300 };

static int a[COUNT], b[COUNT];

static long product(const int *a, const int *b, unsigned long count) {
    vint64m1_t sum = vmv_v_x_i64m1(0, 1);
    for (unsigned long vl; count > 0; count -= vl, a += vl, b += vl) {
        vl = vsetvl_e32m4(count);
        vint64m8_t products = vwmul_vv_i64m8(vle32_v_i32m4(a, vl), vle32_v_i32m4(b, vl), vl);
        sum = vredsum_vs_i64m8_i64m1(sum, products, sum, vl);
    }
    return vmv_x_s_i64m1_i64(sum);
}

int main(void) {
    for (int i = 0; i < COUNT; i++) {
        a[i] = 70000 + 3 * i;
        b[i] = 1000 * i - 40000;
    }
    put_numbers(COUNT, (unsigned long)product(a, b, COUNT));
    return 0;
}
