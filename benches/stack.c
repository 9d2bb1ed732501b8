/* Measures the stack of each export of the static library `station` on x86-64: the call is made on a painted stack, and
 * the lowest byte that lost its paint tells how deep it went. Prints a line for each export: name, bytes, calls made.
 *
 * Every export is called on every input: a demanding one of each kind, all its prefixes, and it with each byte changed
 * in turn; with room to answer and without; on two paints, since a byte may be written that looks like one of them. The
 * reply of a script is stepped over to its end, and so is the reply with each byte changed in turn, and the reply in
 * packets. */
#include <stdio.h>
#include <stdlib.h>
#include <string.h>

#include "station.h"

enum { STACK = 8192, PUSHED = 48, MOST_ARGUMENTS = 12, MOST_SLOTS = STATION_RPC_SLOTS, INPUT = 4096 };

/* Calls a function on another stack: its first six arguments in registers and the other six, PUSHED bytes, at `top`. */
int64_t call_on(void *top, void (*function)(void), const uint64_t *arguments);
__asm__("call_on:\n"
        "    push %rbp\n"
        "    mov %rsp, %rbp\n"
        "    mov %rdi, %rsp\n"
        "    mov %rsi, %rax\n"
        "    mov %rdx, %r10\n"
        "    push 88(%r10)\n"
        "    push 80(%r10)\n"
        "    push 72(%r10)\n"
        "    push 64(%r10)\n"
        "    push 56(%r10)\n"
        "    push 48(%r10)\n"
        "    mov 0(%r10), %rdi\n"
        "    mov 8(%r10), %rsi\n"
        "    mov 16(%r10), %rdx\n"
        "    mov 24(%r10), %rcx\n"
        "    mov 32(%r10), %r8\n"
        "    mov 40(%r10), %r9\n"
        "    call *%rax\n"
        "    leave\n"
        "    ret\n");

/* An export and its parameters in order: i the input, t a text, b the lent buffer, d the lent ids, o the lent slots,
 * p the lent position (each a pointer and a length), f a bool, c a number of one byte, s the least packet
 * size, n another number. */
struct export {
    const char *name;
    void (*function)(void);
    const char *parameters;
    size_t deepest;
    size_t calls;
};
#define EXPORT(name, parameters) {#name, (void (*)(void))name, parameters, 0, 0}

static struct export exports[] = {
    EXPORT(station_parse_header, "io"),
    EXPORT(station_write_header, "ccnnccb"),
    EXPORT(station_is_whitespace, "n"),
    EXPORT(station_text, "io"),
    EXPORT(station_parse_sql_batch, "io"),
    EXPORT(station_parse_transaction_manager_request, "i"),
    EXPORT(station_parse_transaction_descriptor_header, "io"),
    EXPORT(station_parse_fedauth_token, "io"),
    EXPORT(station_parse_rpc_request, "ino"),
    EXPORT(station_capture_marks, "io"),
    EXPORT(station_parse_login7, "ido"),
    EXPORT(station_database, "ito"),
    EXPORT(station_build_query_results, "ib"),
    EXPORT(station_build_query_result, "ib"),
    EXPORT(station_build_query_result_with_trailing_info, "ib"),
    EXPORT(station_build_query_result_with_extras, "ib"),
    EXPORT(station_build_query_results_in_packets, "isb"),
    EXPORT(station_cut_payload, "isb"),
    EXPORT(station_room, "i"),
    EXPORT(station_room_in_packets, "is"),
    EXPORT(station_fit, "io"),
    EXPORT(station_fresh, "p"),
    EXPORT(station_step, "ipo"),
    EXPORT(station_payload, "ib"),
    EXPORT(station_read_label, "ib"),
    EXPORT(station_write_label, "ib"),
    EXPORT(station_build_prelogin_response, "b"),
    EXPORT(station_build_prelogin_response_with_encryption, "fb"),
    EXPORT(station_build_prelogin_response_with_fedauth, "ffb"),
    EXPORT(station_build_prelogin_response_with_options, "ffb"),
    EXPORT(station_build_feature_ext_ack_fedauth, "b"),
    EXPORT(station_build_feature_ext_ack_data_classification, "cb"),
    EXPORT(station_build_feature_ext_ack, "ib"),
    EXPORT(station_build_feature_ext_ack_enhanced_routing, "cb"),
    EXPORT(station_build_fedauth_challenge_response, "iib"),
    EXPORT(station_build_fedauth_info_token, "iib"),
    EXPORT(station_build_login_ack, "b"),
    EXPORT(station_build_done_token_with_status, "nnb"),
    EXPORT(station_build_done_token, "nb"),
    EXPORT(station_build_attention_ack_packet, "b"),
    EXPORT(station_build_transaction_manager_response, "nb"),
    EXPORT(station_build_info_token, "ncciiinb"),
    EXPORT(station_build_leading_error_tokens, "ncib"),
    EXPORT(station_build_terminal_error_tokens, "ncib"),
    EXPORT(station_build_error_response, "ib"),
    EXPORT(station_build_routing_envchange_token, "inb"),
    EXPORT(station_build_enhanced_routing_envchange_token, "inib"),
    EXPORT(station_build_routing_response, "inb"),
    EXPORT(station_build_routing_login_response, "tnifnfb"),
};
enum { EXPORTS = sizeof exports / sizeof exports[0] };

/* "aé€" and a surrogate pair, in UTF-16LE. */
static const uint8_t TEXT[] = {0x61, 0x00, 0xE9, 0x00, 0xAC, 0x20, 0x3D, 0xD8, 0x00, 0xDE};

static _Alignas(16) uint8_t stack[STACK];
static uint8_t buffer[STATION_MOST_PACKETS], ids[65535];
static uint64_t slots[MOST_SLOTS], position[STATION_POSITION_SLOTS];

static void lend(uint64_t *arguments, size_t *count, const void *place, size_t length)
{
    arguments[(*count)++] = (uint64_t)(uintptr_t)place;
    arguments[(*count)++] = length;
}

static void fill(uint64_t *arguments, const char *parameters, const uint8_t *input, size_t length, uint64_t number,
                 bool room)
{
    size_t count = 0;

    for (; *parameters; parameters++)
        switch (*parameters) {
        case 'i': lend(arguments, &count, input, length); break;
        case 't': lend(arguments, &count, TEXT, sizeof TEXT); break;
        case 'b': lend(arguments, &count, buffer, room ? sizeof buffer : 0); break;
        case 'd': lend(arguments, &count, ids, room ? sizeof ids : 0); break;
        case 'o': lend(arguments, &count, slots, room ? MOST_SLOTS : 0); break;
        case 'p': lend(arguments, &count, position, room ? STATION_POSITION_SLOTS : 0); break;
        case 's': arguments[count++] = STATION_LEAST_PACKET_SIZE; break;
        case 'f': arguments[count++] = number & 1; break;
        case 'c': arguments[count++] = number & 0xFF; break;
        default: arguments[count++] = number;
        }
}

/* The answer of the last call. */
static int64_t answer;

/* The bytes of stack below the caller's, the return address among them, that a call wrote on one paint. */
static size_t depth(const struct export *export, const uint64_t *arguments, uint8_t paint)
{
    size_t kept = 0;

    memset(stack, paint, STACK);
    answer = call_on(stack + STACK, export->function, arguments);
    while (kept < STACK && stack[kept] == paint)
        kept++;
    if (kept == 0) {
        fprintf(stderr, "%s: the painted stack is too small\n", export->name);
        exit(1);
    }
    return STACK - PUSHED - kept;
}

static void call(struct export *export, const uint8_t *input, size_t length, uint64_t number, bool room)
{
    static const uint8_t paints[] = {0xA5, 0x5A};
    uint64_t arguments[MOST_ARGUMENTS] = {0}, before[STATION_POSITION_SLOTS];

    fill(arguments, export->parameters, input, length, number, room);
    memcpy(before, position, sizeof before);
    for (size_t i = 0; i < sizeof paints; i++) {
        memcpy(position, before, sizeof before);
        size_t found = depth(export, arguments, paints[i]);
        if (found > export->deepest)
            export->deepest = found;
        export->calls++;
    }
}

static void call_all(const uint8_t *input, size_t length)
{
    station_fresh(position, STATION_POSITION_SLOTS);
    for (size_t i = 0; i < EXPORTS; i++) {
        call(&exports[i], input, length, 0, true);
        call(&exports[i], input, length, 1, true);
        call(&exports[i], input, length, 1, false);
    }
}

/* Each byte, transaction type and choice of an acknowledgement. */
static void call_numbers(void)
{
    for (uint64_t number = 0; number <= 256; number++)
        for (size_t i = 0; i < EXPORTS; i++)
            call(&exports[i], TEXT, sizeof TEXT, number, true);
}

/* Steps over a packet to its end or its refusal. */
static void call_steps(const uint8_t *packet, size_t length)
{
    struct export *step = exports;

    while (strcmp(step->name, "station_step") != 0)
        step++;
    station_fresh(position, STATION_POSITION_SLOTS);
    do
        call(step, packet, length, 0, true);
    while (answer == 1);
}

/* An input with each byte changed. */
static void call_changed(const uint8_t *input, size_t length, void (*calls)(const uint8_t *, size_t))
{
    static const uint8_t changes[] = {0x01, 0x02, 0x04, 0x80, 0xFF};
    uint8_t changed[INPUT];

    memcpy(changed, input, length);
    for (size_t at = 0; at < length; at++)
        for (size_t i = 0; i < sizeof changes; i++) {
            changed[at] = input[at] ^ changes[i];
            calls(changed, length);
            changed[at] = input[at];
        }
}

/* An input, its prefixes, and it with each byte changed; where it is a script, its reply too, in one packet and in
 * more. */
static void call_variants(const uint8_t *input, size_t length)
{
    uint8_t reply[INPUT], packets[INPUT];
    int64_t written = station_build_query_results(input, length, reply, sizeof reply);
    size_t size = STATION_LEAST_PACKET_SIZE;
    int64_t cut = station_build_query_results_in_packets(input, length, size, packets, sizeof packets);

    for (size_t shorter = 0; shorter <= length; shorter++)
        call_all(input, shorter);
    call_changed(input, length, call_all);
    if (written > 0) {
        call_steps(reply, (size_t)written);
        call_changed(reply, (size_t)written, call_steps);
    }
    if (cut > 0) {
        call_all(packets, (size_t)cut);
        call_steps(packets, (size_t)cut);
    }
}

/* Reads an input in hexadecimal, a line each, from standard input. */
static size_t read_input(uint8_t *input)
{
    size_t length = 0;
    unsigned byte;

    while (length < INPUT && scanf("%2x", &byte) == 1) {
        input[length++] = (uint8_t)byte;
        int next = getchar();
        if (next == '\n')
            break;
        ungetc(next, stdin);
    }
    return length;
}

int main(void)
{
    uint8_t input[INPUT];
    size_t length;

    call_numbers();
    while ((length = read_input(input)) > 0)
        call_variants(input, length);
    for (size_t i = 0; i < EXPORTS; i++)
        printf("%s %zu %zu\n", exports[i].name, exports[i].deepest, exports[i].calls);
    return 0;
}
