/* Steps the reply reader over replies from standard input, each a length of 4 bytes, the lower byte first, and its
 * packets. Prints for each the lines of `answer places` (a token a line, then `end` or `refused N`) and an empty line.
 * The packets end where a page begins that nobody may touch, and they are read-only. Where `station_payload` joins
 * them, it must come to the payload that is joined here, in a buffer of just its length. */
#include "lent.h"
#include "station.h"

#include <inttypes.h>
#include <stdio.h>
#include <stdlib.h>
#include <string.h>

static struct lent packets, room;
static uint8_t payload[LENT_MOST];
static size_t payload_size;

/* Joins what follows the headers, as far as their lengths go. */
static void join(void)
{
    const uint8_t *bytes = lent_start(&packets);
    size_t at = 0, length;

    payload_size = 0;
    while (at + 8 <= packets.size && (length = (size_t)bytes[at + 2] << 8 | bytes[at + 3]) >= 8 &&
           length <= packets.size - at) {
        memcpy(payload + payload_size, bytes + at + 8, length - 8);
        payload_size += length - 8;
        at += length;
    }
}

/* Says so where `station_payload` joins another payload than this. */
static void compare_payload(void)
{
    int64_t answer;

    room.size = payload_size;
    lent_fill(&room, 0xA5);
    answer = station_payload(lent_start(&packets), packets.size, lent_start(&room), room.size);
    if (answer >= 0 && ((size_t)answer != payload_size || memcmp(lent_start(&room), payload, payload_size) != 0))
        printf("station_payload joins another payload\n");
    if (!lent_kept_before(&room, 0xA5))
        printf("station_payload writes before its buffer\n");
}

/* Each slot that is named here holds the start of a part, and the next one its length. */
static void print_place(const uint64_t *part)
{
    printf(" @%" PRIu64 "+%" PRIu64, part[0], part[1]);
}

static void print_bytes(size_t start, size_t length)
{
    for (size_t i = 0; i < length; i++)
        printf("%02X", (unsigned)payload[start + i]);
}

static void print_part(const uint64_t *part)
{
    printf(part[1] ? " " : " -");
    print_bytes(part[0], part[1]);
    print_place(part);
}

static size_t chunk_length(size_t at)
{
    const uint8_t *bytes = payload + at;

    return bytes[0] | (size_t)bytes[1] << 8 | (size_t)bytes[2] << 16 | (size_t)bytes[3] << 24;
}

/* A Max part: the bytes of its chunks joined. */
static void print_max(const uint64_t *part)
{
    size_t length;

    printf(chunk_length(part[0]) ? " " : " -");
    for (size_t at = part[0]; (length = chunk_length(at)) > 0; at += 4 + length)
        print_bytes(at + 4, length);
    print_place(part);
}

static void print_cell(const uint64_t *out)
{
    switch (out[STATION_CELL_CASE]) {
    case STATION_CASE_NULL:
        printf("null");
        break;
    case STATION_CASE_NUMBER:
        printf("num %" PRId64, (int64_t)out[STATION_CELL_NUMBER]);
        break;
    case STATION_CASE_PART:
        printf("part");
        print_part(out + STATION_CELL_START);
        break;
    case STATION_CASE_MAX:
        printf("part");
        print_max(out + STATION_CELL_START);
        break;
    default:
        printf("case %" PRIu64, out[STATION_CELL_CASE]);
    }
}

static void print_column(const uint64_t *out)
{
    printf("col %" PRIu64 " %04" PRIX64 " %02" PRIX64 " %" PRIu64, out[STATION_COLUMN_USER_TYPE],
           out[STATION_COLUMN_FLAGS], out[STATION_COLUMN_CODE], out[STATION_COLUMN_LENGTH]);
    print_part(out + STATION_COLUMN_COLLATION_START);
    print_part(out + STATION_COLUMN_NAME_START);
}

static void print_message(const uint64_t *out)
{
    printf("%02" PRIX64 " %" PRIu64 " %" PRIu64 " %" PRIu64 " %" PRIu64, out[STATION_STEP_KIND],
           out[STATION_MESSAGE_NUMBER], out[STATION_MESSAGE_STATE], out[STATION_MESSAGE_CLASS],
           out[STATION_MESSAGE_LINE]);
    print_part(out + STATION_MESSAGE_TEXT_START);
    print_part(out + STATION_MESSAGE_SERVER_START);
    print_part(out + STATION_MESSAGE_PROCEDURE_START);
}

static void print_token(const uint64_t *out)
{
    switch (out[STATION_STEP_KIND]) {
    case STATION_TOKEN_COLMETADATA:
        printf("81 %" PRIu64, out[STATION_COLMETADATA_COUNT]);
        break;
    case STATION_TOKEN_COLUMN:
        print_column(out);
        break;
    case STATION_TOKEN_ROW:
        printf("D1");
        break;
    case STATION_TOKEN_CELL:
        print_cell(out);
        break;
    case STATION_TOKEN_DONE:
        printf("FD %04" PRIX64 " %04" PRIX64 " %" PRIu64, out[STATION_DONE_STATUS], out[STATION_DONE_COMMAND],
               out[STATION_DONE_COUNT]);
        break;
    case STATION_TOKEN_ERROR:
    case STATION_TOKEN_INFO:
        print_message(out);
        break;
    default:
        printf("kind %" PRIu64, out[STATION_STEP_KIND]);
    }
    printf("\n");
}

static void print_tokens(void)
{
    uint64_t position[STATION_POSITION_SLOTS], out[STATION_STEP_SLOTS];
    int64_t answer;

    station_fresh(position, STATION_POSITION_SLOTS);
    while ((answer = station_step(lent_start(&packets), packets.size, position, STATION_POSITION_SLOTS, out,
                                  STATION_STEP_SLOTS)) == 1)
        print_token(out);
    if (answer == 0)
        printf("end\n\n");
    else
        printf("refused %" PRId64 "\n\n", -answer);
}

int main(void)
{
    uint8_t head[4];

    lent_make(&packets);
    lent_make(&room);
    while (fread(head, 1, 4, stdin) == 4) {
        packets.size = head[0] | (size_t)head[1] << 8 | (size_t)head[2] << 16 | (size_t)head[3] << 24;
        if (packets.size > LENT_MOST || fread(lent_start(&packets), 1, packets.size, stdin) != packets.size) {
            fprintf(stderr, "steps: packets that are cut or too long\n");
            return 2;
        }
        join();
        lent_protect(&packets, true);
        compare_payload();
        print_tokens();
        lent_protect(&packets, false);
    }
    return 0;
}
