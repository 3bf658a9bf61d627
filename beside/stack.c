/* How many bytes of stack each C function uses, on the texts that are named and on a few shapes: each is called on a stack that was painted
 * before, and the paint that is gone is counted, less what a call of nothing uses; what its caller puts on the stack for it is in the count.
 * beside/stack builds and runs it. */
#include <stdio.h>
#include <string.h>
#include <ucontext.h>

#include "teykonasir.h"

#define LONGEST (1 << 20)
#define PAINT 0xA5

static const char *const called[] = {"nothing", "teyk_run", "teyk_resume", "teyk_expand", "teyk_place", "teyk_place_at", "teyk_ltk_write",
                                     "teyk_ltk_read", "teyk_sheet_take", "teyk_read", "teyk_name_of_kind", "teyk_name_of_code"};
enum { CALLS = sizeof called / sizeof *called };

static const char *const shapes[] = {
    "#![a(b[c\"x\"])] x #![a", "r#\"abc\"# r\303\266 r###\303\251",
    "use \303\266::{a, b}; use r\303\266; => r#\303\266 ; =>? f(\"x\", r#\"q\"#, 'c', /* a */ \303\266) ;",
    "r\303\274st 'ab 'a' \"s\" `x` r#r r##", "/* /* */ */ // x", "\\x41\\n\\t\\\\", "\377",
};

static uint8_t text[LONGEST], buffer[TEYK_LTK_SIZE(LONGEST)], stack[1 << 16];
static uint64_t records[TEYK_READ_RECORD * LONGEST], sheet[TEYK_SHEET], count;
static size_t length, most[CALLS];
static int which;

static void call(void)
{
    uint64_t answer[TEYK_READ_ANSWER], state[TEYK_STATE] = {0, 0, 0, 0};
    if (which == 1) {
        teyk_run(text, length, 0, UINT64_MAX, records, TEYK_RECORD * LONGEST, answer, 4);
        count = answer[2];
    } else if (which == 2)
        teyk_resume(text, length, 0, UINT64_MAX, state, TEYK_STATE, records, TEYK_RECORD * LONGEST, answer, 4);
    else if (which == 3)
        teyk_expand(text, length, 0, buffer, sizeof buffer, 0, answer, 4);
    else if (which == 4)
        teyk_place(text, length, length, answer, 4);
    else if (which == 5)
        teyk_place_at(text, length, length, length, answer, 4);
    else if (which == 6)
        teyk_ltk_write(records, TEYK_RECORD * count, buffer, sizeof buffer, answer, 4);
    else if (which == 7)
        teyk_ltk_read(buffer, TEYK_LTK_SIZE(count), records, TEYK_RECORD * LONGEST, answer, 4);
    else if (which == 8)
        teyk_sheet_take(text, length, sheet, TEYK_SHEET, answer, 4);
    else if (which == 9)
        teyk_read(text, length, TEYK_OLD_READING, 0, UINT64_MAX, records, TEYK_READ_RECORD * LONGEST, answer, TEYK_READ_ANSWER);
    for (uint64_t n = 0; which > 9 && n <= TEYK_KINDS; n++)
        (which == 10 ? teyk_name_of_kind : teyk_name_of_code)(n, text, TEYK_NAME_MOST, answer, 4);
}

static void measure(void)
{
    for (which = 0; which < CALLS; which++) {
        ucontext_t here, there;
        size_t clean = 0;
        memset(stack, PAINT, sizeof stack);
        getcontext(&there);
        there.uc_stack.ss_sp = stack;
        there.uc_stack.ss_size = sizeof stack;
        there.uc_link = &here;
        makecontext(&there, call, 0);
        swapcontext(&here, &there);
        while (stack[clean] == PAINT)
            clean++;
        if (most[which] < sizeof stack - clean)
            most[which] = sizeof stack - clean;
    }
}

int main(int argc, char **argv)
{
    for (size_t i = 0; i < sizeof shapes / sizeof *shapes; i++) {
        length = strlen(shapes[i]);
        memcpy(text, shapes[i], length);
        measure();
    }
    for (int i = 1; i < argc; i++) {
        FILE *file = fopen(argv[i], "rb");
        if (!file)
            return perror(argv[i]), 1;
        length = fread(text, 1, sizeof text, file);
        fclose(file);
        measure();
    }
    for (int i = 1; i < CALLS; i++)
        printf("%s: %zu used\n", called[i], most[i] - most[0]);
    return 0;
}
