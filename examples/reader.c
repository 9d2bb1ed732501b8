/* Reads a reply from standard input, its packets one after another, and prints its tokens, a line each, with texts as
 * letters; last `end`, or the refusal in words. The exit status is 0 at the end and 1 where the reply is refused.
 *
 *     reader < examples/one-row.packet
 */
#include <inttypes.h>
#include <stdio.h>

#include "station.h"

/* What is kept between steps: the packets, their payloads joined, of which tokens name parts, the types of a set's
 * columns, and the column of the next cell. */
enum { MOST = 2 * STATION_MOST_REPLY };
static uint8_t packets[MOST], payload[MOST];
static uint64_t codes[128];
static size_t columns_read, next_cell;

/* ---- Texts */

/* A character as UTF-8. */
static void print_character(uint32_t c)
{
    if (c < 0x80) {
        putchar((int)c);
    } else if (c < 0x800) {
        putchar((int)(0xC0 | c >> 6));
        putchar((int)(0x80 | (c & 0x3F)));
    } else {
        if (c < 0x10000) {
            putchar((int)(0xE0 | c >> 12));
        } else {
            putchar((int)(0xF0 | c >> 18));
            putchar((int)(0x80 | (c >> 12 & 0x3F)));
        }
        putchar((int)(0x80 | (c >> 6 & 0x3F)));
        putchar((int)(0x80 | (c & 0x3F)));
    }
}

static uint32_t unit_at(size_t at)
{
    return (uint32_t)(payload[at] | payload[at + 1] << 8);
}

/* UTF-16 as letters. A text of a reply need not be UTF-16: half a pair is printed as `?`. */
static void print_letters(size_t at, size_t end)
{
    for (; at + 2 <= end; at += 2) {
        uint32_t unit = unit_at(at);
        uint32_t next = at + 4 <= end ? unit_at(at + 2) : 0;

        if (unit < 0xD800 || unit > 0xDFFF) {
            print_character(unit);
        } else if (unit < 0xDC00 && next >= 0xDC00 && next <= 0xDFFF) {
            print_character(0x10000 + ((unit - 0xD800) << 10) + (next - 0xDC00));
            at += 2;
        } else {
            putchar('?');
        }
    }
}

/* A part of the payload: its start and its length stand in two slots. */
static void print_text(const uint64_t *part)
{
    printf(" \"");
    print_letters(part[0], part[0] + part[1]);
    printf("\"");
}

/* ---- Cells */

static size_t chunk_length(size_t at)
{
    return unit_at(at) | (size_t)unit_at(at + 2) << 16;
}

static void print_chunk(uint64_t code, size_t at, size_t length)
{
    if (code == 0xE7) {
        print_letters(at, at + length);
        return;
    }
    for (size_t i = at; i < at + length; i++)
        if (code == 0xA5)
            printf("%02X", (unsigned)payload[i]);
        else
            putchar(payload[i] < 0x80 ? payload[i] : '?');
}

/* A Max value: its chunks, the last of length 0. Letters of E7, ASCII letters of A7, bytes of A5. */
static void print_max(uint64_t code, size_t at)
{
    size_t length;

    printf(code == 0xA5 ? "bytes " : "text \"");
    while ((length = chunk_length(at)) > 0) {
        print_chunk(code, at + 4, length);
        at += 4 + length;
    }
    printf(code == 0xA5 ? "\n" : "\"\n");
}

static void print_cell(const uint64_t *out)
{
    uint64_t code = codes[next_cell++];

    switch (out[STATION_CELL_CASE]) {
    case STATION_CASE_NULL:
        printf("null\n");
        break;
    case STATION_CASE_NUMBER:
        printf("number %" PRId64 "\n", (int64_t)out[STATION_CELL_NUMBER]);
        break;
    case STATION_CASE_PART:
        printf("text");
        print_text(out + STATION_CELL_START);
        printf("\n");
        break;
    default:
        print_max(code, out[STATION_CELL_START]);
    }
}

/* ---- Tokens */

static void print_column(const uint64_t *out)
{
    uint64_t code = out[STATION_COLUMN_CODE], length = out[STATION_COLUMN_LENGTH];

    codes[columns_read++] = code;
    printf("column");
    print_text(out + STATION_COLUMN_NAME_START);
    if (code == 0x26)
        printf(" integer of %" PRIu64 " bytes\n", length);
    else if (length == 0xFFFF)
        printf(" %s\n", code == 0xE7 ? "NVarCharMax" : code == 0xA7 ? "VarCharMax" : "VarBinaryMax");
    else
        printf(" NVarChar of up to %" PRIu64 " bytes\n", length);
}

static void print_message(const uint64_t *out)
{
    printf("%s %" PRIu64 " state %" PRIu64 " class %" PRIu64 " line %" PRIu64,
           out[STATION_STEP_KIND] == STATION_TOKEN_ERROR ? "error" : "info", out[STATION_MESSAGE_NUMBER],
           out[STATION_MESSAGE_STATE], out[STATION_MESSAGE_CLASS], out[STATION_MESSAGE_LINE]);
    print_text(out + STATION_MESSAGE_TEXT_START);
    printf(" server");
    print_text(out + STATION_MESSAGE_SERVER_START);
    printf(" procedure");
    print_text(out + STATION_MESSAGE_PROCEDURE_START);
    printf("\n");
}

static void print_done(const uint64_t *out)
{
    uint64_t status = out[STATION_DONE_STATUS];

    printf("done");
    if (status & STATION_DONE_COUNT_VALID)
        printf(" rows %" PRIu64, out[STATION_DONE_COUNT]);
    printf(" status %04" PRIX64 "%s%s\n", status, status & STATION_DONE_ERROR ? ", after an error" : "",
           status & STATION_DONE_MORE ? ", more follows" : "");
}

static void print_token(const uint64_t *out)
{
    switch (out[STATION_STEP_KIND]) {
    case STATION_TOKEN_COLMETADATA:
        columns_read = 0;
        printf("columns %" PRIu64 "\n", out[STATION_COLMETADATA_COUNT]);
        break;
    case STATION_TOKEN_COLUMN:
        print_column(out);
        break;
    case STATION_TOKEN_ROW:
        next_cell = 0;
        printf("row\n");
        break;
    case STATION_TOKEN_CELL:
        print_cell(out);
        break;
    case STATION_TOKEN_DONE:
        print_done(out);
        break;
    default:
        print_message(out);
    }
}

/* ---- The program */

static const char *words_of(int64_t refusal)
{
    switch (refusal) {
    case STATION_HEADER_TOO_SHORT: return "a packet's header has under 8 bytes";
    case STATION_UNKNOWN_PACKET_TYPE: return "the type of a packet is unknown";
    case STATION_NOT_A_REPLY: return "a packet is not of type 04, or its length is under 9 or past the bytes";
    case STATION_NOT_THE_NEXT: return "a packet's number is not the next";
    case STATION_END_BIT_WRONG: return "bytes follow the end bit, or there is none";
    case STATION_CUT: return "the reply is cut";
    case STATION_UNKNOWN_TOKEN: return "a byte begins no token";
    case STATION_INNER_WRONG: return "a length or a type is wrong, or bytes follow the last DONE";
    case STATION_TOO_MANY_COLUMNS: return "a set has over 128 columns";
    case STATION_ROW_WITHOUT_COLUMNS: return "a row stands in a set without columns";
    default: return "no refusal of a reply";
    }
}

/* Prints the tokens of packets whose payload is joined; the answer of the last step. */
static int64_t print_tokens(size_t length)
{
    uint64_t position[STATION_POSITION_SLOTS], out[STATION_STEP_SLOTS];
    int64_t answer;

    station_fresh(position, STATION_POSITION_SLOTS);
    while ((answer = station_step(packets, length, position, STATION_POSITION_SLOTS, out, STATION_STEP_SLOTS)) == 1)
        print_token(out);
    return answer;
}

int main(void)
{
    size_t length = fread(packets, 1, sizeof packets, stdin);
    int64_t answer = station_payload(packets, length, payload, sizeof payload);

    if (answer >= 0)
        answer = print_tokens(length);
    if (answer == 0) {
        printf("end\n");
        return 0;
    }
    printf("refused %" PRId64 ": %s\n", -answer, words_of(-answer));
    return 1;
}
