/*
 * Memory between two pages that fault when touched.
 */
#define _DEFAULT_SOURCE
#include "guarded.h"

#include <stdlib.h>
#include <sys/mman.h>
#include <unistd.h>

uint8_t *guarded(void)
{
    size_t page = (size_t)sysconf(_SC_PAGESIZE);
    uint8_t *all = mmap(NULL, GUARDED_BYTES + 2 * page,
                        PROT_READ | PROT_WRITE, MAP_PRIVATE | MAP_ANONYMOUS,
                        -1, 0);
    if (all == MAP_FAILED || mprotect(all, page, PROT_NONE) != 0
        || mprotect(all + page + GUARDED_BYTES, page, PROT_NONE) != 0)
        abort();
    return all + page;
}
