/* The sums of the first 1 to 700 of some numbers of 32 bits, by slides up that double their distance. */
#include "text.h"

enum { COUNT = 700 };

static unsigned numbers[COUNT], sums[COUNT];

static void add_up(void) {
    unsigned before = 0;
    for (unsigned long i = 0, vl; i < COUNT; i += vl) {
        vl = vsetvl_e32m2(COUNT - i);
        vuint32m2_t sum = vle32_v_u32m2(&numbers[i], vl);
        for (unsigned long by = 1; by < vl; by *= 2)
            sum = vadd_vv_u32m2(sum, vslideup_vx_u32m2(vmv_v_x_u32m2(0, vl), sum, by, vl), vl);
        sum = vadd_vx_u32m2(sum, before, vl);
        vse32_v_u32m2(&sums[i], sum, vl);
        before = sums[i + vl - 1];
    }
}

int main(void) {
    unsigned long sum = 0;
    for (unsigned i = 0; i < COUNT; i++)
        numbers[i] = i * i + 7;
    add_up();
    for (unsigned i = 0; i < COUNT; i++)
        sum += sums[i] * (unsigned long)(i + 1);
    put_numbers(sums[COUNT - 1], sum);
    return 0;
}
