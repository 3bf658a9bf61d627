/* One call of teyk_sheet_take on standard input and an empty sheet. With an argument the sheet and the answer are printed; without one nothing is, and the
 * instructions are counted. */
#include <inttypes.h>
#include <stdio.h>
#include <unistd.h>

#include "teykonasir.h"

#define SIZE (1 << 20)

static uint8_t text[SIZE];
static uint64_t sheet[TEYK_SHEET];

int main(int argc, char **argv)
{
    uint64_t answer[TEYK_SHEET_ANSWER];
    size_t length = 0;
    ssize_t n;
    (void)argv;
    while (length < SIZE && (n = read(0, text + length, SIZE - length)) > 0)
        length += (size_t)n;
    teyk_sheet_take(text, length, sheet, TEYK_SHEET, answer, TEYK_SHEET_ANSWER);
    if (argc > 1) {
        for (int i = 0; i < TEYK_SHEET; i++)
            printf("%" PRIu64 "%c", sheet[i], i == TEYK_SHEET - 1 ? '\n' : ' ');
        printf("%" PRIu64 " %" PRIu64 "\n", answer[0], answer[1]);
    }
    return 0;
}
