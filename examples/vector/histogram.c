/* How often each of 16 numbers comes among 1,000: each element of a vector counts in a row of its own, by indexed loads and stores, so that
   no two meet; the rows are added at the end. */
#include "text.h"

enum { COUNT = 1000, KINDS = 16, ROWS = 256 };

static unsigned values[COUNT];
static unsigned rows[ROWS][KINDS];
static unsigned counts[KINDS];

static void count_values(void) {
    const unsigned *at = values;
    unsigned long left = COUNT;
    for (unsigned long vl; left > 0; left -= vl, at += vl) {
        vl = vsetvl_e32m4(left < ROWS ? left : ROWS);
        vuint32m4_t place = vmul_vx_u32m4(vid_v_u32m4(vl), KINDS, vl);
        place = vsll_vx_u32m4(vadd_vv_u32m4(place, vle32_v_u32m4(at, vl), vl), 2, vl);
        vuint32m4_t now = vluxei32_v_u32m4(&rows[0][0], place, vl);
        vsuxei32_v_u32m4(&rows[0][0], place, vadd_vx_u32m4(now, 1, vl), vl);
    }
    for (unsigned long j = 0, vl; j < KINDS; j += vl) {
        vl = vsetvl_e32m4(KINDS - j);
        vuint32m4_t sum = vmv_v_x_u32m4(0, vl);
        for (int i = 0; i < ROWS; i++)
            sum = vadd_vv_u32m4(sum, vle32_v_u32m4(&rows[i][j], vl), vl);
        vse32_v_u32m4(&counts[j], sum, vl);
    }
}

int main(void) {
    unsigned long sum = 0, n = 1;
    for (int i = 0; i < COUNT; i++) {
        n = n * 1103515245 + 12345;
        values[i] = (unsigned)(n >> 16) % KINDS;
    }
    count_values();
    for (int i = 0; i < KINDS; i++)
        sum += counts[i] * (unsigned long)(i + 1);
    put_numbers(counts[0], sum);
    return 0;
}
