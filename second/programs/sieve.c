/* Eratosthenes. There are 1028 primes below 8192, and 1900 below 16384. */

#include <string.h>
#include "known.h"

static char composite[16384];

static unsigned primes(unsigned below)
{
    unsigned n, multiple, count = 0;

    memset(composite, 0, below);
    for (n = 2; n < below; ++n) {
        if (composite[n]) {
            continue;
        }
        ++count;
        for (multiple = n + n; multiple < below; multiple += n) {
            composite[multiple] = 1;
        }
    }
    return count;
}

int main(void)
{
    return WRONG(primes(8192), 1028) + WRONG(primes(16384), 1900);
}
