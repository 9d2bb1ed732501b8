/* A call of an export: its arguments, and the exports by name. */
#ifndef CALL_H
#define CALL_H

#include "station.h"

enum { MOST_INPUTS = 3, MOST_NUMBERS = 8 };

struct input {
    const uint8_t *at;
    size_t count;
};

struct bytes {
    uint8_t *at;
    size_t count;
};

struct slots {
    uint64_t *at;
    size_t count;
};

struct call {
    struct input inputs[MOST_INPUTS];
    uint64_t numbers[MOST_NUMBERS];
    struct bytes buf;
    struct bytes ids;
    struct slots position;
    struct slots out;
};

typedef int64_t (*export)(const struct call *call);

/* The export of a name without `station_`, or NULL. */
export export_named(const char *name);

#endif
