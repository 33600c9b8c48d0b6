/* Strings. The numbers 1 to 1000 have 2893 digits, and 198 of those from 1 to 9999 read the same backwards. */

#include <stdlib.h>
#include <string.h>
#include "known.h"

static char all[2894], number[6], backwards[6];

static void reverse(void)
{
    unsigned char i, length = strlen(number);

    for (i = 0; i < length; ++i) {
        backwards[i] = number[length - 1 - i];
    }
    backwards[length] = '\0';
}

int main(void)
{
    unsigned n, palindromes = 0;

    for (n = 1; n <= 9999; ++n) {
        utoa(n, number, 10);
        reverse();
        palindromes += strcmp(number, backwards) == 0;
        if (n <= 1000) {
            strcat(all, number);
        }
    }
    return WRONG(strlen(all), 2893) + WRONG(palindromes, 198)
        + WRONG((unsigned) (strstr(all, "9991000") - all), 2886);
}
