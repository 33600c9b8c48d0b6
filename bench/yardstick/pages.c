#include "yardstick.h"

enum { PAGES = 256, ACCESS = 8 };
enum { HIGH = 1, WRITTEN = 4, PURPOSE = 5, MOST_PURPOSE = 7 }; /* of an access's bytes, and the last purpose */

static int is_malformed(const uint8_t *access)
{
    return access[WRITTEN] > 1 || access[PURPOSE] > MOST_PURPOSE || access[6] != 0 || access[7] != 0;
}

uint64_t yardstick_pages(uint64_t *restrict reads, uint64_t *restrict writes, const uint8_t *restrict accesses,
                         size_t accesses_len)
{
    const uint8_t *end = accesses + accesses_len;
    uint64_t total = accesses_len / ACCESS;

    if (accesses_len % ACCESS != 0)
        return 20;
    for (const uint8_t *access = accesses; access != end; access += ACCESS)
        if (is_malformed(access))
            return 21;
    for (size_t page = 0; page < PAGES; page++)
        if (__builtin_add_overflow(total, reads[page], &total) || __builtin_add_overflow(total, writes[page], &total))
            return 22;
    for (const uint8_t *access = accesses; access != end; access += ACCESS)
        if (access[WRITTEN])
            writes[access[HIGH]]++;
        else
            reads[access[HIGH]]++;
    return 0;
}

uint64_t bare_pages(uint64_t *restrict reads, uint64_t *restrict writes, const uint8_t *restrict accesses,
                    size_t accesses_len)
{
    const uint8_t *end = accesses + accesses_len;

    for (const uint8_t *access = accesses; access != end; access += ACCESS)
        if (access[WRITTEN])
            writes[access[HIGH]]++;
        else
            reads[access[HIGH]]++;
    return 0;
}
