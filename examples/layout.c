/* A plan on standard input, the plan with its clusters laid out on standard output, by way of libteravulk.a.
 *   layout DEPTH [ROOM]     ROOM: how many bytes to lend for the plan, at most 2,048, where every plan has room */
#include <stdio.h>
#include <stdlib.h>
#include <string.h>

#include "teravulk.h"

static uint8_t bytes[65537];
static uint8_t out[2048];

int main(int argc, char **argv)
{
    if (argc < 2) {
        fprintf(stderr, "layout DEPTH [ROOM]\n");
        return 2;
    }
    size_t depth = strtoul(argv[1], NULL, 10);
    size_t room = argc > 2 ? strtoul(argv[2], NULL, 10) : sizeof out;
    if (room > sizeof out) {
        fprintf(stderr, "at most %zu bytes can be lent\n", sizeof out);
        return 2;
    }
    size_t count = fread(bytes, 1, sizeof bytes, stdin);
    if (ferror(stdin)) {
        perror("standard input");
        return 2;
    }
    memset(out, '-', sizeof out);
    size_t place;
    size_t number = teravulk_layout(bytes, count, depth, out, room, &place);
    if (number != 0) {
        printf("refused %zu %zu, and nothing written: %.*s\n", number, place, (int)room, (char *)out);
        return 1;
    }
    for (size_t i = place; i < sizeof out; i++) {
        if (out[i] != '-') {
            fprintf(stderr, "written past the plan, at %zu\n", i);
            return 2;
        }
    }
    if (fwrite(out, 1, place, stdout) != place || fflush(stdout) != 0) {
        perror("standard output");
        return 2;
    }
    return 0;
}
