/* The processor's decimal mode. 1 to 9999 make 49995000. 2^100 is 1267650600228229401496703205376, and taking every lower
   power of two from it leaves 1. */

#include <string.h>
#include "known.h"

typedef unsigned char number[16];

void add(unsigned char *to, const unsigned char *term);
void subtract(unsigned char *from, const unsigned char *term);

static const number one = {0x01};
static const number sum_known = {0x00, 0x50, 0x99, 0x49};
static const number power_known = {
    0x76, 0x53, 0x20, 0x03, 0x67, 0x49, 0x01, 0x94, 0x22, 0x28, 0x02, 0x60, 0x50, 0x76, 0x26, 0x01
};

int main(void)
{
    static number n, sum, power, rest;
    unsigned i;

    for (i = 1; i <= 9999; ++i) {
        add(n, one);
        add(sum, n);
    }
    memcpy(power, one, sizeof one);
    memcpy(rest, power_known, sizeof rest);
    for (i = 0; i < 100; ++i) {
        subtract(rest, power);
        add(power, power);
    }
    return WRONG(memcmp(sum, sum_known, sizeof sum), 0) + WRONG(memcmp(power, power_known, sizeof power), 0)
        + WRONG(memcmp(rest, one, sizeof rest), 0);
}
