/* layout CALL TIMES DEPTH: CALL (layout, or trial) of the bytes on standard input, TIMES times; the first answer is printed. For callgrind: the same
 * call made a hundred times more costs a hundred calls more, and nothing else. */
#include <stdio.h>
#include <stdlib.h>
#include <string.h>

#include "teravulk.h"

int main(int argc, char **argv) {
    static uint8_t bytes[4096], out[TERAVULK_PAGE];
    if (argc != 4)
        return 1;
    size_t count = fread(bytes, 1, sizeof bytes, stdin), depth = strtoul(argv[3], NULL, 10), place = 0, answer = 0;
    for (long i = strtol(argv[2], NULL, 10); i > 0; i--)
        if (strcmp(argv[1], "layout") == 0) {
            answer = teravulk_layout(bytes, count, depth, out, sizeof out, &place);
        } else {
            place = teravulk_trial(bytes, count, out, sizeof out);
        }
    if (answer == 0)
        fwrite(out, 1, place, stdout);
    return answer != 0;
}
