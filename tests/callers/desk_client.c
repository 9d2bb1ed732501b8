/* Runs the code of docs/DESK_CLIENT.md. Each line of standard input is a reply in hexadecimal. Printed are a line with
 * what `read_sets` answers and the rows of each set, a line for each cell as `answer tokens` has it, and an empty line.
 * page.c is the page's code.
 */
#include "page.c"

#include <stdio.h>

enum { MOST_SETS = 8 };

static uint8_t packets[STATION_MOST_REPLY], payload[STATION_MOST_REPLY], joined[STATION_MOST_REPLY];

static void part(const uint8_t *bytes, int64_t count)
{
    int64_t i;

    printf(count == 0 ? "part -" : "part ");
    for (i = 0; i < count; i++)
        printf("%02X", bytes[i]);
    puts("");
}

/* A Max value, which must be refused where it has no room. */
static void max_part(const uint64_t *out)
{
    int64_t count = cell_joined(payload, out, joined, sizeof joined);

    if (count > 0 && cell_joined(payload, out, joined, (size_t)count - 1) != -1)
        puts("joined without room");
    part(joined, count);
}

static void cell(const uint64_t *out)
{
    if (out[STATION_CELL_CASE] == STATION_CASE_NULL)
        puts("null");
    else if (out[STATION_CELL_CASE] == STATION_CASE_NUMBER)
        printf("num %lld\n", (long long)cell_number(out));
    else if (out[STATION_CELL_CASE] == STATION_CASE_PART)
        part(payload + out[STATION_CELL_START], (int64_t)out[STATION_CELL_LENGTH]);
    else
        max_part(out);
}

static void cells(size_t length)
{
    uint64_t position[STATION_POSITION_SLOTS], out[STATION_STEP_SLOTS];

    if (station_payload(packets, length, payload, length) < 0)
        return;
    station_fresh(position, STATION_POSITION_SLOTS);
    while (station_step(packets, length, position, STATION_POSITION_SLOTS, out, STATION_STEP_SLOTS) == 1)
        if (out[STATION_STEP_KIND] == STATION_TOKEN_CELL)
            cell(out);
}

static void sets_of(size_t length)
{
    struct set sets[MOST_SETS];
    int64_t answer = read_sets(packets, length, sets, MOST_SETS), i;

    printf("%d:", (int)answer);
    for (i = 0; i < answer && i < MOST_SETS; i++) {
        printf("%s%u", i == 0 ? " " : ", ", (unsigned)sets[i].rows);
        if (!sets[i].is_counted)
            printf(", not counted");
        if (sets[i].rows != sets[i].counted || sets[i].is_last != (i == answer - 1))
            printf(" (DONE counts %u, last %d)", (unsigned)sets[i].counted, sets[i].is_last);
    }
    puts("");
}

int main(void)
{
    static char line[2 * STATION_MOST_REPLY + 2];
    unsigned byte;
    size_t n;

    while (fgets(line, sizeof line, stdin) != NULL) {
        for (n = 0; n < sizeof packets && sscanf(line + 2 * n, "%2x", &byte) == 1; n++)
            packets[n] = (uint8_t)byte;
        sets_of(n);
        cells(n);
        puts("");
    }
    return 0;
}
