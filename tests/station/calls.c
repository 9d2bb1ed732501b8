/* Makes the calls that standard input names, and prints what each answered and wrote.
 *
 * A line is the export's name without `station_`, and a word for each argument in the order of its parameters:
 *     i:HEX       bytes that are read, i:- for none
 *     n:NUMBER    a number or a bool
 *     b:COUNT     a lent buffer, d:COUNT lent ids, o:COUNT lent slots, p:COUNT a lent position
 *     p:V,V,..    a lent position with these values; V*COUNT is a value COUNT times
 * The answer's line is the number, and a word for each lent slice of which something was written: b:HEX, d:HEX,
 * o:V,V,.. and p:V,V,.., or p:SLOT=V,.. for a position that was lent with values.
 *
 * What is lent ends at a page that nobody may touch, and what is read is read-only. Each call is made with two
 * fillings of what is written: where both leave the same byte, it was written. It is made again with NULL for every
 * empty slice. Where anything else than the front was written, or two calls of a line differ, a line says so in place
 * of the answer. */
#define _DEFAULT_SOURCE

#include "call.h"
#include "lent.h"

#include <inttypes.h>
#include <stdio.h>
#include <stdlib.h>
#include <string.h>

/* What is lent to be written, by its letter, and the bytes of an element. */
enum { BUF, IDS, POSITION, OUT, WRITTEN };
static const char LETTERS[] = "bdpo";
static const size_t WIDTHS[] = {1, 1, 8, 8};
static const uint8_t FILLINGS[] = {0xA5, 0x5A};

static struct lent inputs[MOST_INPUTS];
static struct lent lent[WRITTEN];
static bool is_lent[WRITTEN];

/* The line's call, and the values of the position where it has some. */
static struct call call;
static size_t input_count, number_count;
static uint64_t values[LENT_MOST / 8];
static bool has_values;

/* What the two fillings left. */
static uint8_t left[2][WRITTEN][LENT_MOST];

static void fail(const char *what, const char *word)
{
    fprintf(stderr, "calls: %s: %s\n", what, word);
    exit(2);
}

static unsigned digit(char letter)
{
    static const char digits[] = "0123456789ABCDEF";
    const char *found = letter ? strchr(digits, letter) : NULL;

    if (!found)
        fail("no digit of upper-case hexadecimal", (char[]){letter, 0});
    return (unsigned)(found - digits);
}

static void read_hex(struct lent *input, const char *digits)
{
    size_t count = strcmp(digits, "-") == 0 ? 0 : strlen(digits) / 2;

    if (count > LENT_MOST)
        fail("too many bytes", "");
    input->size = count;
    for (size_t i = 0; i < count; i++)
        lent_start(input)[i] = (uint8_t)(digit(digits[2 * i]) << 4 | digit(digits[2 * i + 1]));
}

static size_t read_values(char *text)
{
    const size_t most = sizeof values / sizeof values[0];
    size_t count = 0;

    for (char *at = text; *at; at += *at == ',') {
        uint64_t value = strtoull(at, &at, 10);
        uint64_t times = *at == '*' ? strtoull(at + 1, &at, 10) : 1;

        if (times > most - count || (*at && *at != ','))
            fail("no values of a position", text);
        while (times-- > 0)
            values[count++] = value;
    }
    return count;
}

static void read_lent(char letter, char *text)
{
    size_t which = (size_t)(strchr(LETTERS, letter) - LETTERS);
    size_t count = strtoull(text, NULL, 10);

    if (which == POSITION && strpbrk(text, ",*")) {
        count = read_values(text);
        has_values = true;
    }
    is_lent[which] = true;
    lent[which].size = count * WIDTHS[which];
    if (lent[which].size > LENT_MOST)
        fail("too much is lent", text);
}

static void read_word(char *word)
{
    if (word[0] == 'i' && input_count < MOST_INPUTS)
        read_hex(&inputs[input_count++], word + 2);
    else if (word[0] == 'n' && number_count < MOST_NUMBERS)
        call.numbers[number_count++] = strtoull(word + 2, NULL, 10);
    else if (word[0] && strchr(LETTERS, word[0]))
        read_lent(word[0], word + 2);
    else
        fail("no such word", word);
}

static void *place(const struct lent *slice, bool null)
{
    return null && slice->size == 0 ? NULL : lent_start(slice);
}

/* Points the call to what is lent, with NULL for empty slices or not. */
static void point(bool null)
{
    for (size_t i = 0; i < MOST_INPUTS; i++) {
        call.inputs[i].at = place(&inputs[i], null);
        call.inputs[i].count = inputs[i].size;
    }
    call.buf.at = place(&lent[BUF], null);
    call.buf.count = lent[BUF].size;
    call.ids.at = place(&lent[IDS], null);
    call.ids.count = lent[IDS].size;
    call.position.at = place(&lent[POSITION], null);
    call.position.count = lent[POSITION].size / 8;
    call.out.at = place(&lent[OUT], null);
    call.out.count = lent[OUT].size / 8;
}

static void protect_inputs(bool read_only)
{
    for (size_t i = 0; i < input_count; i++)
        lent_protect(&inputs[i], read_only);
}

/* Makes the call on a filling; false where a byte before what is lent was written. */
static bool made(export function, size_t filling, bool null, int64_t *answer)
{
    bool kept = true;

    for (size_t i = 0; i < WRITTEN; i++)
        lent_fill(&lent[i], FILLINGS[filling]);
    if (has_values)
        memcpy(lent_start(&lent[POSITION]), values, lent[POSITION].size);
    point(null);
    *answer = function(&call);
    for (size_t i = 0; i < WRITTEN; i++)
        kept = kept && lent_kept_before(&lent[i], FILLINGS[filling]);
    return kept;
}

/* Whether NULL for the empty slices leads to the same. */
static bool same_with_null(export function, int64_t answer)
{
    int64_t again;

    for (size_t filling = 0; filling < 2; filling++) {
        if (!made(function, filling, true, &again) || again != answer)
            return false;
        for (size_t i = 0; i < WRITTEN; i++)
            if (memcmp(lent_start(&lent[i]), left[filling][i], lent[i].size) != 0)
                return false;
    }
    return true;
}

/* How many bytes of a slice were written, all at its front; or LENT_MOST + 1 where others were. */
static size_t written(size_t which)
{
    size_t front = 0, all = 0;

    for (size_t i = 0; i < lent[which].size; i++)
        if (left[0][which][i] == left[1][which][i]) {
            all++;
            front += front == i;
        } else if (left[0][which][i] != FILLINGS[0] || left[1][which][i] != FILLINGS[1]) {
            return LENT_MOST + 1;
        }
    return all == front ? front : LENT_MOST + 1;
}

static uint64_t slot(size_t which, size_t i)
{
    uint64_t value;

    memcpy(&value, left[0][which] + 8 * i, sizeof value);
    return value;
}

static void print_changes(void)
{
    const char *before = " p:";

    for (size_t i = 0; i < lent[POSITION].size / 8; i++)
        if (slot(POSITION, i) != values[i]) {
            printf("%s%zu=%" PRIu64, before, i, slot(POSITION, i));
            before = ",";
        }
}

static void print_written(size_t which)
{
    size_t count = written(which);

    if (count == 0)
        return;
    printf(" %c:", LETTERS[which]);
    if (count > LENT_MOST) {
        printf("elsewhere");
        return;
    }
    for (size_t i = 0; WIDTHS[which] == 1 && i < count; i++)
        printf("%02X", (unsigned)left[0][which][i]);
    for (size_t i = 0; WIDTHS[which] == 8 && i < count / 8; i++)
        printf("%s%" PRIu64, i ? "," : "", slot(which, i));
}

static void print(int64_t answer)
{
    printf("%" PRId64, answer);
    for (size_t i = 0; i < WRITTEN; i++)
        if (i == POSITION && has_values)
            print_changes();
        else if (is_lent[i])
            print_written(i);
    printf("\n");
}

static void make(export function)
{
    int64_t answers[2];
    bool kept = true;

    protect_inputs(true);
    for (size_t filling = 0; filling < 2; filling++) {
        kept = made(function, filling, false, &answers[filling]) && kept;
        for (size_t i = 0; i < WRITTEN; i++)
            memcpy(left[filling][i], lent_start(&lent[i]), lent[i].size);
    }
    if (!kept)
        printf("bytes before what is lent were written\n");
    else if (answers[0] != answers[1])
        printf("two answers: %" PRId64 " and %" PRId64 "\n", answers[0], answers[1]);
    else if (!same_with_null(function, answers[0]))
        printf("another answer with NULL for empty slices\n");
    else
        print(answers[0]);
    protect_inputs(false);
}

static void read_call(char *line)
{
    export function = export_named(strtok(line, " \n"));

    if (!function)
        fail("no such export", line);
    memset(&call, 0, sizeof call);
    memset(is_lent, 0, sizeof is_lent);
    input_count = number_count = 0;
    has_values = false;
    for (size_t i = 0; i < MOST_INPUTS; i++)
        inputs[i].size = 0;
    for (size_t i = 0; i < WRITTEN; i++)
        lent[i].size = 0;
    for (char *word; (word = strtok(NULL, " \n"));)
        read_word(word);
    make(function);
}

int main(void)
{
    char *line = NULL;
    size_t room = 0;

    for (size_t i = 0; i < MOST_INPUTS; i++)
        lent_make(&inputs[i]);
    for (size_t i = 0; i < WRITTEN; i++)
        lent_make(&lent[i]);
    while (getline(&line, &room, stdin) > 0)
        read_call(line);
    free(line);
    return 0;
}
