/* Check sums, bit by bit. The catalogues of them give these for "123456789": 29B1 for CRC-16/CCITT-FALSE and CBF43926 for
   CRC-32. Of 4,096 zeros CRC-32 is C71C0011. */

#include "known.h"

static const unsigned char digits[] = "123456789";
static unsigned char zeros[4096];

static unsigned crc16(const unsigned char *bytes, unsigned length)
{
    unsigned crc = 0xFFFF;
    unsigned char bit;

    for (; length; --length) {
        crc ^= *bytes++ << 8;
        for (bit = 0; bit < 8; ++bit) {
            crc = crc & 0x8000 ? crc << 1 ^ 0x1021 : crc << 1;
        }
    }
    return crc;
}

static unsigned long crc32(const unsigned char *bytes, unsigned length)
{
    unsigned long crc = 0xFFFFFFFF;
    unsigned char bit;

    for (; length; --length) {
        crc ^= *bytes++;
        for (bit = 0; bit < 8; ++bit) {
            crc = crc & 1 ? crc >> 1 ^ 0xEDB88320 : crc >> 1;
        }
    }
    return ~crc;
}

int main(void)
{
    return WRONG(crc16(digits, 9), 0x29B1) + WRONG(crc32(digits, 9), 0xCBF43926)
        + WRONG(crc32(zeros, sizeof zeros), 0xC71C0011);
}
