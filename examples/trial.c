/* A trial file on standard input, its lines on standard output, by way of libteravulk.a.
 *   trial [ROOM]     ROOM: how many bytes to lend for the text, at most 2,048, where all have room */
#include <stdio.h>
#include <stdlib.h>
#include <string.h>

#include "teravulk.h"

static uint8_t bytes[65537]; /* one more than the longest trial tells an input that is too long */
static uint8_t out[TERAVULK_PAGE];

int main(int argc, char **argv)
{
    size_t room = argc > 1 ? strtoul(argv[1], NULL, 10) : sizeof out;
    if (room > sizeof out) {
        fprintf(stderr, "at most %zu bytes can be lent\n", sizeof out);
        return 2;
    }
    size_t count = fread(bytes, 1, sizeof bytes, stdin);
    if (ferror(stdin)) {
        perror("standard input");
        return 2;
    }
    memset(out, '-', sizeof out);
    size_t written = teravulk_trial(bytes, count, out, room);
    if (written == 0) {
        printf("no room, and nothing written: %.*s\n", (int)room, (char *)out);
        return 1;
    }
    if (fwrite(out, 1, written, stdout) != written || fflush(stdout) != 0) {
        perror("standard output");
        return 2;
    }
    return 0;
}
