/* The length of a text by loads that stop at the first fault alone (the text ends with its page, behind which nothing is mapped), and a
   copy of it. */
#include "text.h"

static unsigned long length(const unsigned char *text) {
    const unsigned char *at = text;
    for (;;) {
        unsigned long vl = vsetvlmax_e8m8();
        vuint8m8_t bytes = vle8ff_v_u8m8(at, &vl, vl);
        long zero = vfirst_m_b1(vmseq_vx_u8m8_b1(bytes, 0, vl), vl);
        if (zero >= 0)
            return (unsigned long)(at - text) + (unsigned long)zero;
        at += vl;
    }
}

static void copy(unsigned char *to, const unsigned char *from, unsigned long count) {
    for (unsigned long vl; count > 0; count -= vl, to += vl, from += vl) {
        vl = vsetvl_e8m8(count);
        vse8_v_u8m8(to, vle8_v_u8m8(from, vl), vl);
    }
}

/* the end of the program's variables, where the linker puts it; the rest of the page is there, and nothing behind it */
extern unsigned char _end[];

static unsigned char copied[1024];

int main(void) {
    unsigned char *last = (unsigned char *)(((unsigned long)_end + 4095) & ~4095ul);
    unsigned char *text = last - 1000;
    if (text < _end)
        return 1;
    for (int i = 0; i < 999; i++)
        text[i] = (unsigned char)('a' + i % 26);
    unsigned long count = length(text);
    copy(copied, text, count);
    unsigned long sum = 0;
    for (unsigned long i = 0; i < count; i++)
        sum += copied[i] * (i + 1);
    put_numbers(count, sum);
    return 0;
}
