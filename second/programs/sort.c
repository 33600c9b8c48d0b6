/* Quicksort, which calls itself. 2003 is a prime, so the multiples of 7919 modulo 2003 are 1 to 2002 in some order: sorted,
   number i is at place i. */

#include "known.h"

#define PRIME 2003

static unsigned numbers[PRIME];

/* From low to high, both among them. */
static void sort(int low, int high)
{
    int left = low, right = high;
    unsigned pivot, kept;

    if (low >= high) {
        return;
    }
    pivot = numbers[(low + high) / 2];
    while (left <= right) {
        while (numbers[left] < pivot) {
            ++left;
        }
        while (numbers[right] > pivot) {
            --right;
        }
        if (left <= right) {
            kept = numbers[left];
            numbers[left++] = numbers[right];
            numbers[right--] = kept;
        }
    }
    sort(low, right);
    sort(left, high);
}

int main(void)
{
    unsigned i, in_place = 0;

    for (i = 1; i < PRIME; ++i) {
        numbers[i] = i * 7919UL % PRIME;
    }
    sort(1, PRIME - 1);
    for (i = 1; i < PRIME; ++i) {
        in_place += numbers[i] == i;
    }
    return WRONG(in_place, 2002);
}
