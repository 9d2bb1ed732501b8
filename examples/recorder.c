/* An event recorder: writes a script into a lent buffer, asks for the room of its reply, builds the reply and writes
 * the packet to standard output.
 *
 *     recorder first      a set of one column and one row
 *     recorder event      a trip as a relay records it, with samples in chunks, a null and two infos
 *     recorder locked     an error in place of the set
 *     recorder NAME script     the script in place of its packet
 *
 * The exit status is 0, or 1 where the script is refused. The helpers need neither a heap nor a C library: a unit can
 * take them as they are. docs/FORMATS.md has the records' bytes.
 */
#include <stdio.h>
#include <string.h>

#include "station.h"

/* ---- The helpers */

struct script {
    uint8_t *bytes; /* lent */
    size_t room;
    size_t length; /* the bytes that the script has; over `room` where it did not fit */
};

static const uint8_t COLLATION[5] = {0x09, 0x04, 0xD0, 0x00, 0x34};

static void put_byte(struct script *script, uint8_t byte)
{
    if (script->length < script->room)
        script->bytes[script->length] = byte;
    script->length++;
}

/* A number of some bytes, the lower byte first. */
static void put_number(struct script *script, uint64_t number, int width)
{
    for (int i = 0; i < width; i++)
        put_byte(script, (uint8_t)(number >> 8 * i));
}

static void put_bytes(struct script *script, const uint8_t *bytes, size_t length)
{
    for (size_t i = 0; i < length; i++)
        put_byte(script, bytes[i]);
}

/* ASCII letters as UTF-16: the letter, and a 0. */
static void put_text(struct script *script, const char *text)
{
    for (; *text; text++)
        put_number(script, (uint8_t)*text, 2);
}

static size_t units(const char *text)
{
    size_t count = 0;

    while (text[count])
        count++;
    return count;
}

/* The head of a record: the length of its payload, and its kind. */
static void put_head(struct script *script, size_t length, uint16_t kind)
{
    put_number(script, length, 4);
    put_number(script, kind, 2);
}

static void put_set(struct script *script)
{
    put_head(script, 0, STATION_RECORD_SET);
}

static void put_column(struct script *script, uint8_t type, const char *name)
{
    put_head(script, 1 + sizeof COLLATION + 2 * units(name), STATION_RECORD_COLUMN);
    put_byte(script, type);
    put_bytes(script, COLLATION, sizeof COLLATION);
    put_text(script, name);
}

static void put_row(struct script *script)
{
    put_head(script, 0, STATION_RECORD_ROW);
}

/* A cell of STATION_VALUE_TINYINT to STATION_VALUE_BIGINT, of 1, 2, 4 or 8 bytes. */
static void put_number_cell(struct script *script, uint8_t value, int64_t number)
{
    int width = 1 << (value - STATION_VALUE_TINYINT);

    put_head(script, 1 + (size_t)width, STATION_RECORD_CELL);
    put_byte(script, value);
    put_number(script, (uint64_t)number, width);
}

static void put_text_cell(struct script *script, const char *text)
{
    put_head(script, 1 + 2 * units(text), STATION_RECORD_CELL);
    put_byte(script, STATION_VALUE_NVARCHAR);
    put_text(script, text);
}

/* A cell without bytes of its own: a null, or a Max value, whose chunks follow. */
static void put_cell(struct script *script, uint8_t value)
{
    put_head(script, 1, STATION_RECORD_CELL);
    put_byte(script, value);
}

static void put_chunk(struct script *script, const uint8_t *bytes, size_t length)
{
    put_head(script, length, STATION_RECORD_CHUNK);
    put_bytes(script, bytes, length);
}

/* An error of STATION_RECORD_LEADING_ERROR or STATION_RECORD_TERMINAL_ERROR. */
static void put_error(struct script *script, uint16_t kind, uint32_t number, uint8_t severity, const char *text)
{
    put_head(script, 5 + 2 * units(text), kind);
    put_number(script, number, 4);
    put_byte(script, severity);
    put_text(script, text);
}

/* An info of STATION_RECORD_INFO or STATION_RECORD_TRAILING_INFO: state 1, severity 10, line 0, no procedure. */
static void put_info(struct script *script, uint16_t kind, uint32_t number, const char *text, const char *server)
{
    put_head(script, 16 + 2 * (units(text) + units(server)), kind);
    put_number(script, number, 4);
    put_byte(script, 1);
    put_byte(script, 10);
    put_number(script, 0, 4);
    put_number(script, units(text), 2);
    put_number(script, units(server), 2);
    put_number(script, 0, 2);
    put_text(script, text);
    put_text(script, server);
}

/* ---- Three scripts */

static void first(struct script *script)
{
    put_set(script);
    put_column(script, STATION_TYPE_INT, "n");
    put_row(script);
    put_number_cell(script, STATION_VALUE_INT, 7);
}

static void event(struct script *script)
{
    static const uint8_t samples[] = {0x80, 0xA1, 0xC4, 0xD9, 0xC2, 0xA0};

    put_set(script);
    put_column(script, STATION_TYPE_INT, "event");
    put_column(script, STATION_TYPE_NVARCHAR, "feeder");
    put_column(script, STATION_TYPE_NVARCHAR, "time");
    put_column(script, STATION_TYPE_SMALLINT, "celsius");
    put_column(script, STATION_TYPE_SMALLINT, "km");
    put_column(script, STATION_TYPE_VARBINARY_MAX, "samples");
    put_info(script, STATION_RECORD_INFO, 50101, "Clock set by GPS", "STATION-3");
    put_row(script);
    put_number_cell(script, STATION_VALUE_INT, 4711);
    put_text_cell(script, "Nord 7");
    put_text_cell(script, "2026-03-14T02:17:08.413");
    put_number_cell(script, STATION_VALUE_SMALLINT, -12);
    put_cell(script, STATION_VALUE_NULL);
    put_cell(script, STATION_VALUE_VARBINARY_MAX);
    put_chunk(script, samples, 4);
    put_chunk(script, samples + 4, 2);
    put_info(script, STATION_RECORD_TRAILING_INFO, 50199, "End of the records", "");
}

static void locked(struct script *script)
{
    put_set(script);
    put_error(script, STATION_RECORD_TERMINAL_ERROR, 1222, 13, "Event store locked");
}

/* ---- The program */

static uint8_t script_bytes[1024], packet[STATION_MOST_REPLY];

static bool written_by_name(struct script *script, const char *name)
{
    if (strcmp(name, "first") == 0)
        first(script);
    else if (strcmp(name, "event") == 0)
        event(script);
    else if (strcmp(name, "locked") == 0)
        locked(script);
    return script->length > 0 && script->length <= script->room;
}

int main(int count, char **words)
{
    struct script script = {script_bytes, sizeof script_bytes, 0};
    int64_t room, length;

    if (count < 2 || !written_by_name(&script, words[1])) {
        fprintf(stderr, "recorder first|event|locked [script]\n");
        return 1;
    }
    if (count > 2 && strcmp(words[2], "script") == 0)
        return fwrite(script.bytes, 1, script.length, stdout) == script.length ? 0 : 1;
    room = station_room(script.bytes, script.length);
    if (room < 0 || room > (int64_t)sizeof packet) {
        fprintf(stderr, "refused %d\n", (int)-room);
        return 1;
    }
    length = station_build_query_results(script.bytes, script.length, packet, (size_t)room);
    if (length < 0) {
        fprintf(stderr, "refused %d\n", (int)-length);
        return 1;
    }
    return fwrite(packet, 1, (size_t)length, stdout) == (size_t)length ? 0 : 1;
}
