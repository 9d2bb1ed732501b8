/* Prints what calls answer by the names of the header's slots, in the lines of `answer many CALL`: CALL is `header`,
 * `login`, `descriptor`, `fedauth`, `rpc`, `fit` or `read_label`, or `text`, which prints a text's four counts. Inputs come
 * from standard input, each a length of 4 bytes, the lower byte first, and its bytes. */
#include "station.h"

#include <inttypes.h>
#include <stdio.h>
#include <string.h>

enum { MOST = 1 << 18, NUMBER = 4 };
static uint8_t input[MOST], ids[MOST], shown[STATION_MOST_LABEL_TEXT];
static uint64_t out[STATION_RPC_SLOTS];

static void print_refused(int64_t answer)
{
    printf("refused %" PRId64 "\n", -answer);
}

static void header(size_t length)
{
    int64_t answer = station_parse_header(input, length, out, STATION_HEADER_SLOTS);
    unsigned status = (unsigned)out[STATION_HEADER_STATUS];

    if (answer < 0) {
        print_refused(answer);
        return;
    }
    printf("header %02X %02X %u %u %u %u eom=%d ignore=%d\n", (unsigned)out[STATION_HEADER_TYPE], status,
           (unsigned)out[STATION_HEADER_LENGTH], (unsigned)out[STATION_HEADER_SPID],
           (unsigned)out[STATION_HEADER_NUMBER], (unsigned)out[STATION_HEADER_WINDOW],
           (status & STATION_STATUS_END_OF_MESSAGE) != 0,
           (status & STATION_STATUS_IGNORE) != 0);
}

static void print_byte(const char *name, uint64_t byte)
{
    if (byte == STATION_NO_BYTE)
        printf("%s none\n", name);
    else
        printf("%s %" PRIu64 "\n", name, byte);
}

static void print_part(const char *name, uint64_t start, uint64_t length)
{
    if (start == STATION_NO_PART)
        printf("%s none\n", name);
    else
        printf("%s %" PRIu64 " %" PRIu64 "\n", name, start, length);
}

static void login(size_t length)
{
    int64_t count = station_parse_login7(input, length, ids, MOST, out, STATION_LOGIN_SLOTS);

    if (count < 0) {
        print_refused(count);
        return;
    }
    printf("fedauth %" PRIu64 "\nlibrary %" PRIu64 "\n", out[STATION_LOGIN_FEDAUTH], out[STATION_LOGIN_LIBRARY]);
    print_byte("workflow", out[STATION_LOGIN_WORKFLOW]);
    print_part("token", out[STATION_LOGIN_TOKEN_START], out[STATION_LOGIN_TOKEN_LENGTH]);
    print_part("server", out[STATION_LOGIN_SERVER_START], out[STATION_LOGIN_SERVER_LENGTH]);
    print_part("useragent", out[STATION_LOGIN_USER_AGENT_START], out[STATION_LOGIN_USER_AGENT_LENGTH]);
    print_byte("classversion", out[STATION_LOGIN_CLASSIFICATION_VERSION]);
    print_part("database", out[STATION_LOGIN_DATABASE_START], out[STATION_LOGIN_DATABASE_LENGTH]);
    printf("session %" PRIu64 "\nfeatures %" PRId64 " %s", out[STATION_LOGIN_SESSION], count, count ? "" : "-");
    for (int64_t i = 0; i < count; i++)
        printf("%02X", (unsigned)ids[i]);
    printf("\n");
}

static void descriptor(size_t length)
{
    if (station_parse_transaction_descriptor_header(input, length, out, STATION_DESCRIPTOR_SLOTS) == 0)
        printf("none\n");
    else
        printf("found %" PRIu64 " %" PRIu64 "\n", out[STATION_DESCRIPTOR_TRANSACTION], out[STATION_DESCRIPTOR_COUNT]);
}

static void fedauth(size_t length)
{
    int64_t answer = station_parse_fedauth_token(input, length, out, STATION_PART_SLOTS);

    if (answer < 0)
        print_refused(answer);
    else
        printf("token %" PRIu64 " %" PRIu64 "\n", out[STATION_PART_START], out[STATION_PART_LENGTH]);
}

static size_t number_at(const uint8_t *bytes)
{
    return bytes[0] | (size_t)bytes[1] << 8 | (size_t)bytes[2] << 16 | (size_t)bytes[3] << 24;
}

static void print_hex(const uint8_t *bytes, uint64_t length)
{
    for (uint64_t i = 0; i < length; i++)
        printf("%02X", (unsigned)bytes[i]);
}

/* The bytes of a part, or `-` where it has none. */
static void print_bytes(const uint8_t *body, uint64_t start, uint64_t length)
{
    printf("%s", length ? "" : "-");
    print_hex(body + start, length);
}

static void print_held(const char *name, const uint8_t *body, uint64_t start, uint64_t length)
{
    printf("%s %" PRIu64 " %" PRIu64 " ", name, start, length);
    print_bytes(body, start, length);
}

/* The bytes of a Max part's chunks, joined. */
static void print_chunks(const uint8_t *body, uint64_t start)
{
    size_t length = number_at(body + start);

    printf("%s", length ? "" : "-");
    for (; length; start += 4 + length, length = number_at(body + start))
        print_hex(body + start + 4, length);
}

static void print_value(const uint8_t *body)
{
    uint64_t start = out[STATION_RPC_VALUE_START], length = out[STATION_RPC_VALUE_LENGTH];

    if (out[STATION_RPC_VALUE_CASE] == STATION_CASE_NUMBER) {
        printf("num %" PRId64 "\n", (int64_t)out[STATION_RPC_VALUE_NUMBER]);
        return;
    }
    if (out[STATION_RPC_VALUE_CASE] == STATION_CASE_NULL) {
        printf("null\n");
        return;
    }
    printf("part ");
    if (out[STATION_RPC_VALUE_CASE] == STATION_CASE_MAX)
        print_chunks(body, start);
    else
        print_bytes(body, start, length);
    printf(" @%" PRIu64 "+%" PRIu64 "\n", start, length);
}

static void print_parameter(const uint8_t *body)
{
    if (!out[STATION_RPC_FOUND]) {
        printf("param none\n");
        return;
    }
    print_held("param", body, out[STATION_RPC_PARAMETER_NAME_START], out[STATION_RPC_PARAMETER_NAME_LENGTH]);
    printf(" status %02X type %02X %" PRIu64 " ", (unsigned)out[STATION_RPC_PARAMETER_STATUS],
           (unsigned)out[STATION_RPC_PARAMETER_CODE], out[STATION_RPC_PARAMETER_LENGTH]);
    print_bytes(body, out[STATION_RPC_PARAMETER_COLLATION_START], out[STATION_RPC_PARAMETER_COLLATION_LENGTH]);
    printf("\n");
    print_value(body);
}

/* An input is the number of the asked parameter, then the request. */
static void rpc(size_t length)
{
    const uint8_t *body = input + NUMBER;
    int64_t answer = station_parse_rpc_request(body, length - NUMBER, number_at(input), out, STATION_RPC_SLOTS);

    if (answer < 0) {
        print_refused(answer);
        return;
    }
    if (out[STATION_RPC_NAMED])
        print_held("proc name", body, out[STATION_RPC_NAME_START], out[STATION_RPC_NAME_LENGTH]);
    else
        printf("proc number %" PRIu64, out[STATION_RPC_NUMBER]);
    printf("\nflags %04X\n", (unsigned)out[STATION_RPC_FLAGS]);
    if (out[STATION_RPC_STATEMENT_START] != STATION_NO_PART) {
        print_held("statement", body, out[STATION_RPC_STATEMENT_START], out[STATION_RPC_STATEMENT_LENGTH]);
        printf("\n");
    }
    print_parameter(body);
}

static void fit(size_t length)
{
    int64_t answer = station_fit(input, length, out, STATION_FIT_SLOTS);

    if (answer < 0)
        print_refused(answer);
    else if (answer == 0)
        printf("fits\n");
    else if (out[STATION_FIT_KIND] == STATION_MISFIT_CLASSIFICATION)
        printf("misfit class %" PRIu64 "\n", out[STATION_FIT_SET]);
    else if (out[STATION_FIT_KIND] == STATION_MISFIT_COLUMN)
        printf("misfit column %" PRIu64 " %" PRIu64 "\n", out[STATION_FIT_SET], out[STATION_FIT_COLUMN]);
    else if (out[STATION_FIT_KIND] == STATION_MISFIT_CELL)
        printf("misfit cell %" PRIu64 " %" PRIu64 " %" PRIu64 "\n", out[STATION_FIT_SET], out[STATION_FIT_ROW],
               out[STATION_FIT_COLUMN]);
}

static void read_label(size_t length)
{
    int64_t answer = station_read_label(input, length, shown, sizeof shown);

    if (answer < 0) {
        print_refused(answer);
    } else if (answer == STATION_NULL_LABEL) {
        printf("null\n");
    } else {
        printf("text ");
        print_bytes(shown, 0, (uint64_t)answer);
        printf("\n");
    }
}

static void text(size_t length)
{
    int64_t answer = station_text(input, length, out, STATION_TEXT_SLOTS);

    if (answer < 0)
        print_refused(answer);
    else
        printf("%" PRIu64 " %" PRIu64 " %" PRIu64 " %" PRIu64 "\n", out[STATION_TEXT_UNITS],
               out[STATION_TEXT_CHARACTERS], out[STATION_TEXT_UTF8_BYTES], out[STATION_TEXT_HAS_PAIR]);
}

static const struct {
    const char *name;
    void (*print)(size_t length);
} calls[] = {{"header", header}, {"login", login}, {"descriptor", descriptor},
             {"fedauth", fedauth}, {"rpc", rpc}, {"fit", fit}, {"read_label", read_label}, {"text", text}};

int main(int count, char **words)
{
    size_t call = 0, length;
    uint8_t head[4];

    while (call < sizeof calls / sizeof calls[0] && (count < 2 || strcmp(calls[call].name, words[1]) != 0))
        call++;
    if (call == sizeof calls / sizeof calls[0])
        return 2;
    while (fread(head, 1, 4, stdin) == 4) {
        length = number_at(head);
        if (length > MOST || fread(input, 1, length, stdin) != length)
            return 2;
        calls[call].print(length);
        printf("\n");
    }
    return 0;
}
