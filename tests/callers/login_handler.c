/* Runs the code of docs/LOGIN_HANDLER.md: each line of standard input is a packet in hexadecimal, and each line of
 * standard output the reply, or `closed`. page.c is the page's code.
 */
#include "page.c"

#include <stdio.h>

/* The text "A" is answered with one set without columns, any other text with no script at all. */
struct script script_for(const uint8_t *text, size_t length)
{
    static const uint8_t SET[] = {0, 0, 0, 0, 1, 0};
    struct script found = {SET, sizeof SET};

    if (length != 2 || text[0] != 'A' || text[1] != 0)
        found.length = 0;
    return found;
}

static int64_t answer(const uint8_t *packet, size_t length)
{
    uint64_t slots[STATION_HEADER_SLOTS];
    int64_t body = body_length(packet, length, slots);

    if (body < 0 || (size_t)body + STATION_HEADER_BYTES != length)
        return -1;
    return reply_to(slots[STATION_HEADER_TYPE], packet + STATION_HEADER_BYTES, (size_t)body);
}

int main(void)
{
    static char line[2 * MOST_BODY + 64];
    static uint8_t packet[MOST_BODY + STATION_HEADER_BYTES];
    unsigned byte;
    int64_t i, count;
    size_t n;

    while (fgets(line, sizeof line, stdin) != NULL) {
        for (n = 0; n < sizeof packet && sscanf(line + 2 * n, "%2x", &byte) == 1; n++)
            packet[n] = (uint8_t)byte;
        count = answer(packet, n);
        for (i = 0; i < count; i++)
            printf("%02X", reply[i]);
        puts(count < 0 ? "closed" : "");
    }
    return 0;
}
