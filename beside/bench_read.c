/* One call of teyk_read on standard input. With an argument the records and the answer are printed; without one nothing is, and the instructions are
 * counted. */
#include <inttypes.h>
#include <stdio.h>
#include <unistd.h>

#include "teykonasir.h"

#define SIZE (1 << 20)

static uint8_t text[SIZE];
static uint64_t records[TEYK_READ_RECORD * SIZE];

int main(int argc, char **argv)
{
    uint64_t answer[TEYK_READ_ANSWER];
    size_t length = 0;
    ssize_t n;
    (void)argv;
    while (length < SIZE && (n = read(0, text + length, SIZE - length)) > 0)
        length += (size_t)n;
    teyk_read(text, length, TEYK_OLD_READING, 0, UINT64_MAX, records, TEYK_READ_RECORD * SIZE, answer, TEYK_READ_ANSWER);
    if (argc > 1) {
        for (uint64_t i = 0; i < TEYK_READ_RECORD * answer[2]; i++)
            printf("%" PRIu64 "%c", records[i], i % TEYK_READ_RECORD == TEYK_READ_RECORD - 1 ? '\n' : ' ');
        printf("%" PRIu64 " %" PRIu64 " %" PRIu64 " %" PRIu64 "\n", answer[0], answer[1], answer[2], answer[4]);
    }
    return 0;
}
