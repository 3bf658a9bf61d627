/* The reporter on standard input: `end` asks the line and the column of the text's end, `start` those of place 0 (which costs the check alone), `back` the
 * place of line and column 2^64 - 1 (the text's end). With a second argument the answer is printed; without one the instructions are counted. */
#include <inttypes.h>
#include <stdio.h>
#include <string.h>
#include <unistd.h>

#include "teykonasir.h"

#define SIZE (1 << 20)

static uint8_t text[SIZE];

int main(int argc, char **argv)
{
    uint64_t answer[TEYK_PLACE_ANSWER] = {0, 0}, code = 0;
    size_t length = 0;
    ssize_t n;
    while (length < SIZE && (n = read(0, text + length, SIZE - length)) > 0)
        length += (size_t)n;
    if (argc < 2)
        return 2;
    if (!strcmp(argv[1], "start"))
        code = teyk_place(text, length, 0, answer, TEYK_PLACE_ANSWER);
    else if (!strcmp(argv[1], "end"))
        code = teyk_place(text, length, length, answer, TEYK_PLACE_ANSWER);
    else
        code = teyk_place_at(text, length, UINT64_MAX, UINT64_MAX, answer, TEYK_PLACE_AT_ANSWER);
    if (argc > 2)
        printf("%" PRIu64 " %" PRIu64 " %" PRIu64 "\n", code, answer[0], answer[1]);
    return 0;
}
