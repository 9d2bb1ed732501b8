/* The smallest unit, without a C library: the reply of a bare set, with a memcpy and an entry of its own. Its exit status
 * is 0 where the reply has its 24 bytes. Linux on x86-64. */
#include "station.h"

static const uint8_t SCRIPT[] = {0, 0, 0, 0, 1, 0};
static uint8_t reply[24];

void *memcpy(void *restrict to, const void *restrict from, size_t count)
{
    for (size_t i = 0; i < count; i++)
        ((uint8_t *)to)[i] = ((const uint8_t *)from)[i];
    return to;
}

static int unit(void)
{
    int64_t room = station_room(SCRIPT, sizeof SCRIPT);

    if (room < 0 || room > (int64_t)sizeof reply)
        return 1;
    return station_build_query_results(SCRIPT, sizeof SCRIPT, reply, sizeof reply) == 24 ? 0 : 1;
}

__attribute__((force_align_arg_pointer)) void _start(void)
{
    __asm__ volatile("syscall" : : "a"(60L), "D"((long)unit()));
    __builtin_unreachable();
}
