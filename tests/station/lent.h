/* Memory that is lent to a call. It ends where a page begins that nobody may touch, and it may be made read-only. */
#ifndef LENT_H
#define LENT_H

#include <stdbool.h>
#include <stddef.h>
#include <stdint.h>

/* The most bytes that can be lent, and those before them that are watched. */
enum { LENT_MOST = 1 << 18, LENT_BEFORE = 64 };

struct lent {
    uint8_t *pages;
    uint8_t *end; /* the first byte of the page that nobody may touch */
    size_t size;  /* the bytes that are lent, the last before `end` */
};

void lent_make(struct lent *lent);

/* The first of the bytes that are lent. */
uint8_t *lent_start(const struct lent *lent);

/* Fills what is lent, and what is watched before it, with a byte. */
void lent_fill(struct lent *lent, uint8_t byte);

/* Whether what is watched before it has its byte still. */
bool lent_kept_before(const struct lent *lent, uint8_t byte);

void lent_protect(struct lent *lent, bool read_only);

#endif
