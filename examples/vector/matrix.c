/* The product of two matrices of 20 rows and columns of 32 bits, row by row: each number of the left row times a row of the right. */
#include "text.h"

enum { N = 20 };

static int a[N][N], b[N][N], c[N][N];

static void multiply(void) {
    for (int i = 0; i < N; i++) {
        for (unsigned long j = 0, vl; j < N; j += vl) {
            vl = vsetvl_e32m2(N - j);
            vint32m2_t row = vmv_v_x_i32m2(0, vl);
            for (int k = 0; k < N; k++)
                row = vmacc_vx_i32m2(row, a[i][k], vle32_v_i32m2(&b[k][j], vl), vl);
            vse32_v_i32m2(&c[i][j], row, vl);
        }
    }
}

int main(void) {
    unsigned long sum = 0;
    for (int i = 0; i < N; i++)
        for (int j = 0; j < N; j++) {
            a[i][j] = i + 2 * j;
            b[i][j] = 3 * i + j * j;
        }
    multiply();
    for (int i = 0; i < N; i++)
        for (int j = 0; j < N; j++)
            sum += (unsigned long)c[i][j] * (unsigned long)(i + N * j + 1);
    put_numbers((unsigned long)c[N - 1][N - 1], sum);
    return 0;
}
