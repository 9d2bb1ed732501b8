/* Memory that is lent to a call (lent.h). */
#define _DEFAULT_SOURCE

#include "lent.h"

#include <stdio.h>
#include <stdlib.h>
#include <string.h>
#include <sys/mman.h>
#include <unistd.h>

static void must(bool holds, const char *what)
{
    if (!holds) {
        perror(what);
        exit(2);
    }
}

void lent_make(struct lent *lent)
{
    size_t page = (size_t)sysconf(_SC_PAGESIZE);
    size_t whole = LENT_MOST + 2 * page;

    lent->pages = mmap(NULL, whole, PROT_READ | PROT_WRITE, MAP_PRIVATE | MAP_ANONYMOUS, -1, 0);
    must(lent->pages != MAP_FAILED, "mmap");
    lent->end = lent->pages + whole - page;
    lent->size = 0;
    must(mprotect(lent->end, page, PROT_NONE) == 0, "mprotect");
}

uint8_t *lent_start(const struct lent *lent)
{
    return lent->end - lent->size;
}

void lent_fill(struct lent *lent, uint8_t byte)
{
    memset(lent_start(lent) - LENT_BEFORE, byte, LENT_BEFORE + lent->size);
}

bool lent_kept_before(const struct lent *lent, uint8_t byte)
{
    const uint8_t *before = lent_start(lent) - LENT_BEFORE;

    for (size_t i = 0; i < LENT_BEFORE; i++)
        if (before[i] != byte)
            return false;
    return true;
}

void lent_protect(struct lent *lent, bool read_only)
{
    size_t size = (size_t)(lent->end - lent->pages);

    must(mprotect(lent->pages, size, read_only ? PROT_READ : PROT_READ | PROT_WRITE) == 0, "mprotect");
}
