/* The listing of standard input, as `teyk list` prints it, over the C functions. From the repository's root, on x86-64:
 *   tools/archives teykonasir && cc -O2 -Iinclude examples/c/listing.c target/staticlib/libteykonasir.a -o target/listing-c
 *
 * There is room for ROOM records at a time: a run that stopped for want of room is taken up again where it stood.
 */
#include <inttypes.h>
#include <stdio.h>

#include "teykonasir.h"

#define LIMIT 32768
#define ROOM 64

static uint8_t text[LIMIT + 1];

typedef uint64_t namer(uint64_t number, uint8_t *buffer, size_t buffer_len, uint64_t *answer, size_t answer_len);

static void print_name(namer *name_of, uint64_t number)
{
    uint8_t name[TEYK_NAME_MOST];
    uint64_t length[TEYK_NAME_ANSWER];
    if (name_of(number, name, sizeof name, length, TEYK_NAME_ANSWER) == 0)
        fwrite(name, 1, length[0], stdout);
}

int main(void)
{
    uint64_t records[TEYK_RECORD * ROOM], state[TEYK_STATE] = {0, 0, 0, 0}, answer[TEYK_RESUME_ANSWER];
    uint64_t code;
    size_t length = fread(text, 1, sizeof text, stdin);
    if (length > LIMIT) {
        printf("error TooLong at 0 advances 0\n");
        return 0;
    }
    do {
        code = teyk_resume(text, length, 0, UINT64_MAX, state, TEYK_STATE, records, TEYK_RECORD * ROOM, answer, TEYK_RESUME_ANSWER);
        for (uint64_t i = 0; i < answer[2]; i++) {
            const uint64_t *r = records + TEYK_RECORD * i;
            printf("%" PRIu64 " %" PRIu64 " ", r[1], r[2]);
            print_name(teyk_name_of_kind, r[0]);
            printf("\n");
        }
    } while (code == TEYK_NO_ROOM);
    if (code != TEYK_END) {
        printf("error ");
        print_name(teyk_name_of_code, code);
        printf(" at %" PRIu64 " advances %" PRIu64 "\n", answer[1], answer[3]);
    } else
        printf("end advances %" PRIu64 "\n", answer[3]);
    return 0;
}
