/* Calls each C function and compares with what include/teykonasir.h says: that the header fits the archive is proved nowhere. From the
 * repository's root, on x86-64:
 *   tools/archives
 *   cc -Iinclude beside/calls.c target/staticlib/lib*.a -o target/calls && target/calls
 */
#include <inttypes.h>
#include <stdio.h>
#include <string.h>
#include <sys/mman.h>

#include "teykonasir.h"

static int wrong;

#define EXPECT(what) ((what) ? (void)0 : (void)(wrong++, printf("line %d: not so: %s\n", __LINE__, #what)))
#define BYTES(s) (const uint8_t *)(s), sizeof(s) - 1
#define NUMBERS(a) (a), sizeof(a) / sizeof *(a)

static int told(const uint64_t *answer, uint64_t a, uint64_t b, uint64_t c, uint64_t d)
{
    return answer[0] == a && answer[1] == b && answer[2] == c && answer[3] == d;
}

static void runs(void)
{
    uint64_t answer[5] = {9, 9, 9, 9, 9}, records[11];
    memset(records, 255, sizeof records);
    EXPECT(teyk_run(BYTES("##"), 7, UINT64_MAX, NUMBERS(records), NUMBERS(answer)) == TEYK_END);
    EXPECT(told(answer, 0, 0, 2, 3) && answer[4] == 9);
    EXPECT(records[0] == TEYK_KIND_HASH && records[1] == 7 && records[2] == 8 && records[3] == 7 && records[4] == 7);
    EXPECT(records[5] == TEYK_KIND_HASH && records[9] == 8 && records[10] == UINT64_MAX);
    EXPECT(teyk_run(BYTES("."), 7, UINT64_MAX, NUMBERS(records), NUMBERS(answer)) == TEYK_HALF_SYMBOL);
    EXPECT(told(answer, 22, 7, 0, 1));
    EXPECT(teyk_run(BYTES("a $"), 7, UINT64_MAX, NUMBERS(records), NUMBERS(answer)) == TEYK_STRAY_CHARACTER);
    EXPECT(told(answer, 23, 9, 1, 2));
    EXPECT(teyk_run(BYTES("a b c"), 0, UINT64_MAX, NUMBERS(records), NUMBERS(answer)) == TEYK_NO_ROOM);
    EXPECT(told(answer, 14, 4, 2, 3));
    EXPECT(teyk_run(BYTES("a b c"), 0, 2, NUMBERS(records), NUMBERS(answer)) == TEYK_WORK_LIMIT);
    EXPECT(told(answer, 15, 1, 1, 1));
    EXPECT(teyk_run(BYTES("a\377"), 5, 0, NUMBERS(records), NUMBERS(answer)) == TEYK_NOT_UTF8);
    EXPECT(told(answer, 11, 6, 0, 0));
    EXPECT(teyk_run(BYTES("a"), UINT64_MAX, 0, NUMBERS(records), NUMBERS(answer)) == TEYK_SHIFT_TOO_LARGE);
    records[0] = answer[0] = 77;
    EXPECT(teyk_run(BYTES("a"), 0, 9, NUMBERS(records), answer, 3) == TEYK_NO_ROOM && answer[0] == 77 && records[0] == 77);
}

/* teyk_read with room for all: how it ended, what the first record has for the gap and for its code, and the last gap's depth */
static int deep(const uint8_t *text, size_t length, uint64_t code, uint64_t gap, uint64_t in_code, uint64_t last)
{
    uint64_t answer[TEYK_READ_ANSWER], records[TEYK_READ_RECORD * 64];
    memset(records, 0, sizeof records);
    return teyk_read(text, length, TEYK_OLD_READING, 3, UINT64_MAX, NUMBERS(records), NUMBERS(answer)) == code && answer[0] == code
        && records[5] == gap && records[6] == in_code && answer[4] == last && answer[5] == TEYK_NOT_TOLD;
}

/* before a token, in its code, and after the last one */
#define EVERYWHERE(comments, depth) \
    (deep(BYTES(comments "a"), 0, depth, 0, 0) && deep(BYTES("=>" comments ";"), 0, 0, depth, 0) && deep(BYTES("=>?" comments), 0, 0, depth, 0) \
     && deep(BYTES("use" comments "}"), 0, 0, depth, 0) && deep(BYTES(comments), 0, 0, 0, depth) && deep(BYTES("a" comments), 0, 0, 0, depth))

static void depths(void)
{
    EXPECT(EVERYWHERE("", 0) && EVERYWHERE(" ", 0) && EVERYWHERE("//\n", 0) && EVERYWHERE("// /* /* */\n", 0));
    EXPECT(EVERYWHERE("/**/", 1) && EVERYWHERE("/* */", 1) && EVERYWHERE("/*/ */", 1) && EVERYWHERE("/* // */", 1) && EVERYWHERE("/**//**/", 1));
    EXPECT(EVERYWHERE("/*/**/*/", 2) && EVERYWHERE("/* /* */ */ /* */", 2) && EVERYWHERE("/* // /* */ */", 2) && EVERYWHERE("/* /* */ /* */ */", 2));
    EXPECT(EVERYWHERE("/* \" /* */ ' */", 2) && EVERYWHERE("/**/ // /*\n /*/**/*/", 2) && EVERYWHERE("/*/*/**/*/*/ /*/**/*/", 3));
    /* what covers in code: strings, quotes, regexes (which need a hash fewer there) */
    EXPECT(deep(BYTES("=>\"/*\""), 0, 0, 0, 0) && deep(BYTES("=>\"\\\"/*\"/**/"), 0, 0, 1, 0) && deep(BYTES("=>'/*;"), 0, 0, 0, 0));
    EXPECT(deep(BYTES("=>'\\'/*';"), 0, 0, 0, 0) && deep(BYTES("=>'\"'/**/;"), 0, 0, 1, 0) && deep(BYTES("=>r#\"/*\"/*/**/*/;"), 0, 0, 2, 0));
    EXPECT(deep(BYTES("=>r##\"\"/*\"#/**/;"), 0, 0, 1, 0) && deep(BYTES("=>r#a/**/;"), 0, 0, 1, 0) && deep(BYTES("=>(/*/**/*/,/**/);"), 0, 0, 2, 0));
    /* tokens that have no code */
    EXPECT(deep(BYTES("\"/*/**/*/\""), 0, 0, 0, 0) && deep(BYTES("`/*`"), 0, 0, 0, 0) && deep(BYTES("#![/*]"), 0, 0, 0, 0));
    EXPECT(deep(BYTES("'/*'"), 0, 0, 0, 0) && deep(BYTES("r\"/*\""), 0, 0, 0, 0) && deep(BYTES("=>@L/**/"), 0, 0, 0, 1));
    /* both, and the character that is dropped after an attribute */
    EXPECT(deep(BYTES("/**/=>/*/**/*/;/*/*/**/*/*/"), 0, 1, 2, 3) && deep(BYTES("#![a]//**/"), 0, 0, 0, 1) && deep(BYTES("#![a]///**/"), 0, 0, 0, 0));
    /* an error: the last depth is 0, whatever stands before it */
    EXPECT(deep(BYTES("/**/a/*/**/*/$"), 23, 1, 0, 0) && deep(BYTES("/**/a /*/**/"), 10, 1, 0, 0) && deep(BYTES("/**/a=>/*/**/*/("), 8, 1, 0, 0));
}

static int record_is(const uint64_t *record, uint64_t kind, uint64_t start, uint64_t end, uint64_t from, uint64_t to, uint64_t gap, uint64_t code)
{
    return record[0] == kind && record[1] == start && record[2] == end && record[3] == from && record[4] == to && record[5] == gap
        && record[6] == code && record[7] == TEYK_NOT_TOLD && record[8] == TEYK_NOT_TOLD;
}

static int answer_is(const uint64_t *answer, uint64_t code, uint64_t place, uint64_t count, uint64_t advances, uint64_t last)
{
    return told(answer, code, place, count, advances) && answer[4] == last && answer[5] == TEYK_NOT_TOLD;
}

/* what is written, and what is not: seven numbers of answer and two records with eight numbers more */
static void reads(void)
{
    uint64_t answer[TEYK_READ_ANSWER + 1], records[2 * TEYK_READ_RECORD + 8];
    const size_t length = (size_t)TEYK_TEXT_LIMIT + 1;
    uint8_t *text = mmap(NULL, length, PROT_READ | PROT_WRITE, MAP_PRIVATE | MAP_ANONYMOUS | MAP_NORESERVE, -1, 0);
    memset(records, 77, sizeof records);
    const uint64_t old = records[0];
    answer[6] = 9;
    EXPECT(teyk_read(BYTES("/**/a=>/*/**/*/ b"), TEYK_OLD_READING, 7, UINT64_MAX, NUMBERS(records), NUMBERS(answer)) == TEYK_END);
    EXPECT(answer_is(answer, 0, 0, 2, 17, 0) && answer[6] == 9 && records[18] == old && records[25] == old);
    EXPECT(record_is(records, TEYK_KIND_ID, 11, 12, 11, 12, 1, 0) && record_is(records + 9, TEYK_KIND_EQUALS_GREATER_THAN_CODE, 12, 24, 14, 24, 0, 2));
    EXPECT(teyk_read(BYTES("# /* /* */ */ "), TEYK_OLD_READING, 7, UINT64_MAX, NUMBERS(records), NUMBERS(answer)) == TEYK_END);
    EXPECT(answer_is(answer, 0, 0, 1, 15, 2) && record_is(records, TEYK_KIND_HASH, 7, 8, 7, 7, 0, 0));
    /* the second record is as the call before left it */
    EXPECT(record_is(records + 9, TEYK_KIND_EQUALS_GREATER_THAN_CODE, 12, 24, 14, 24, 0, 2));
    /* room for two, and for one: eight numbers more are no record */
    EXPECT(teyk_read(BYTES("a/**/b/*/**/*/c"), TEYK_OLD_READING, 0, UINT64_MAX, NUMBERS(records), NUMBERS(answer)) == TEYK_NO_ROOM);
    EXPECT(answer_is(answer, 14, 14, 2, 6, 0) && record_is(records + 9, TEYK_KIND_ID, 5, 6, 5, 6, 1, 0) && records[18] == old && records[25] == old);
    memset(records, 77, sizeof records);
    EXPECT(teyk_read(BYTES("a/**/b"), TEYK_OLD_READING, 0, UINT64_MAX, records, 17, NUMBERS(answer)) == TEYK_NO_ROOM && answer_is(answer, 14, 5, 1, 1, 0) && records[9] == old);
    EXPECT(teyk_read(BYTES("a"), TEYK_OLD_READING, 0, UINT64_MAX, records, 8, NUMBERS(answer)) == TEYK_NO_ROOM && answer_is(answer, 14, 0, 0, 0, 0));
    EXPECT(teyk_read(BYTES("/*/**/*/"), TEYK_OLD_READING, 0, UINT64_MAX, records, 0, NUMBERS(answer)) == TEYK_END && answer_is(answer, 0, 0, 0, 8, 2));
    /* the work limit: one short of the end, and just enough; with 14 too, 15 */
    EXPECT(teyk_read(BYTES("a/**/"), TEYK_OLD_READING, 7, 4, NUMBERS(records), NUMBERS(answer)) == TEYK_WORK_LIMIT && answer_is(answer, 15, 8, 1, 1, 0));
    EXPECT(teyk_read(BYTES("a/**/"), TEYK_OLD_READING, 7, 5, NUMBERS(records), NUMBERS(answer)) == TEYK_END && answer_is(answer, 0, 0, 1, 5, 1));
    EXPECT(teyk_read(BYTES("a/**/b"), TEYK_OLD_READING, 7, 5, records, 17, NUMBERS(answer)) == TEYK_WORK_LIMIT && answer_is(answer, 15, 8, 1, 1, 0));
    /* an error, the checks, a short answer */
    EXPECT(teyk_read(BYTES("a/**/."), TEYK_OLD_READING, 7, UINT64_MAX, NUMBERS(records), NUMBERS(answer)) == TEYK_HALF_SYMBOL && answer_is(answer, 22, 12, 1, 6, 0));
    EXPECT(teyk_read(BYTES("a/* /**/"), TEYK_OLD_READING, 7, UINT64_MAX, NUMBERS(records), NUMBERS(answer)) == TEYK_UNTERMINATED_BLOCK_COMMENT && answer_is(answer, 10, 8, 1, 8, 0));
    memset(records, 77, sizeof records);
    EXPECT(teyk_read(BYTES("/**/a\377"), TEYK_OLD_READING, 5, 0, NUMBERS(records), NUMBERS(answer)) == TEYK_NOT_UTF8 && answer_is(answer, 11, 10, 0, 0, 0));
    EXPECT(teyk_read(BYTES("\377"), TEYK_OLD_READING, UINT64_MAX, 0, NUMBERS(records), NUMBERS(answer)) == TEYK_SHIFT_TOO_LARGE && answer_is(answer, 13, 0, 0, 0, 0));
    EXPECT(text != MAP_FAILED);
    if (text != MAP_FAILED) {
        EXPECT(teyk_read(text, length, TEYK_OLD_READING, UINT64_MAX, 0, NUMBERS(records), NUMBERS(answer)) == TEYK_TOO_LONG && answer_is(answer, 12, 0, 0, 0, 0));
        munmap(text, length);
    }
    memset(answer, 77, sizeof answer);
    EXPECT(teyk_read(BYTES("a"), TEYK_OLD_READING, 0, 9, NUMBERS(records), answer, 5) == TEYK_NO_ROOM && teyk_read(BYTES("\377"), TEYK_OLD_READING, 0, 9, NUMBERS(records), answer, 0) == TEYK_NO_ROOM);
    for (size_t i = 0; i < TEYK_READ_ANSWER + 1; i++)
        EXPECT(answer[i] == old);
    for (size_t i = 0; i < 2 * TEYK_READ_RECORD + 8; i++)
        EXPECT(records[i] == old);
}

/* one text in one reading, from shift 7, with room for all: how it ended, and at most two of its records (kind, start, end) */
static int in_reading(const uint8_t *text, size_t length, uint64_t reading, uint64_t code, uint64_t place, uint64_t advances, uint64_t count, const uint64_t *six)
{
    uint64_t answer[TEYK_READ_ANSWER], records[TEYK_READ_RECORD * 16];
    if (teyk_read(text, length, reading, 7, UINT64_MAX, NUMBERS(records), NUMBERS(answer)) != code || !answer_is(answer, code, place, count, advances, 0))
        return 0;
    for (uint64_t i = 0; i < count && i < 2; i++)
        if (memcmp(records + TEYK_READ_RECORD * i, six + 3 * i, 3 * sizeof *six))
            return 0;
    return 1;
}

#define IN(text, reading, code, place, advances, count, ...) in_reading(BYTES(text), reading, code, place, advances, count, (const uint64_t[6]){__VA_ARGS__})

/* the three places where the readings differ, and 24 */
static void readings(void)
{
    const uint64_t o = TEYK_OLD_READING, k = TEYK_KEPT_READING;
    EXPECT(IN("#![a]xb", o, 0, 0, 7, 2, 53, 7, 12, 15, 13, 14) && IN("#![a]xb", k, 0, 0, 7, 2, 53, 7, 12, 15, 12, 14));
    EXPECT(IN("#![a]//x", o, 22, 13, 7, 1, 53, 7, 12) && IN("#![a]//x", k, 0, 0, 8, 1, 53, 7, 12) && IN("#![a]", k, 0, 0, 5, 1, 53, 7, 12));
    EXPECT(IN("=>r#\"a\"b\"#;", o, 5, 15, 11, 0, 0) && IN("=>r#\"a\"b\"#;", k, 0, 0, 11, 2, 30, 7, 17, 48, 17, 18));
    EXPECT(IN("=>r#\"a\";", o, 0, 0, 8, 2, 30, 7, 14, 48, 14, 15) && IN("=>r#\"a\";", k, 5, 9, 8, 0, 0));
    EXPECT(IN("=>r#", o, 5, 10, 4, 0, 0) && IN("=>r#", k, 5, 9, 4, 0, 0) && IN("=>r#1", o, 9, 11, 4, 0, 0) && IN("=>r#1", k, 9, 11, 4, 0, 0));
    EXPECT(IN("=>'a'", o, 6, 9, 5, 0, 0) && IN("=>'a'", k, 0, 0, 5, 1, 30, 7, 12) && IN("=>''", k, 0, 0, 4, 1, 30, 7, 11) && IN("=>'''", k, 0, 0, 5, 1, 30, 7, 12));
    EXPECT(IN("=>('a", o, 6, 10, 5, 0, 0) && IN("=>('a", k, 8, 7, 5, 0, 0) && IN("=>'", k, 6, 9, 3, 0, 0));
    EXPECT(IN("=>'\\", k, 6, 9, 4, 0, 0) && IN("=>'\\'", k, 6, 9, 5, 0, 0) && IN("=>'\\''", k, 0, 0, 6, 1, 30, 7, 13));
    /* any other choice: after a short answer, before 12, 13 and 11; no record is written */
    uint64_t answer[TEYK_READ_ANSWER], records[TEYK_READ_RECORD];
    const size_t length = (size_t)TEYK_TEXT_LIMIT + 1;
    uint8_t *text = mmap(NULL, length, PROT_READ | PROT_WRITE, MAP_PRIVATE | MAP_ANONYMOUS | MAP_NORESERVE, -1, 0);
    const uint64_t others[] = {2, 3, 24, (uint64_t)1 << 32, ((uint64_t)1 << 32) + 1, UINT64_MAX};
    memset(records, 77, sizeof records);
    const uint64_t old = records[0];
    EXPECT(text != MAP_FAILED);
    for (size_t i = 0; text != MAP_FAILED && i < sizeof others / sizeof *others; i++) {
        memset(answer, 77, sizeof answer);
        EXPECT(teyk_read(text, length, others[i], UINT64_MAX, 0, NUMBERS(records), answer, 5) == TEYK_NO_ROOM && answer[0] == old);
        EXPECT(teyk_read(text, length, others[i], UINT64_MAX, 0, NUMBERS(records), NUMBERS(answer)) == TEYK_UNKNOWN_READING && answer_is(answer, 24, 0, 0, 0, 0));
        EXPECT(teyk_read(BYTES("a"), others[i], 0, 9, NUMBERS(records), NUMBERS(answer)) == TEYK_UNKNOWN_READING && answer_is(answer, 24, 0, 0, 0, 0));
        EXPECT(teyk_read(BYTES("\377"), others[i], 0, 9, NUMBERS(records), NUMBERS(answer)) == TEYK_UNKNOWN_READING && records[0] == old);
    }
    if (text != MAP_FAILED)
        munmap(text, length);
}

/* a run with room for one record, taken up again to its end, and what each refusal leaves */
static void resumes(void)
{
    uint64_t answer[4], records[5], state[5] = {0, 0, 0, 8, 9};
    EXPECT(teyk_resume(BYTES("a b ."), 7, UINT64_MAX, NUMBERS(state), NUMBERS(records), NUMBERS(answer)) == TEYK_NO_ROOM);
    EXPECT(told(answer, 14, 9, 1, 1) && records[1] == 7 && told(state, 1, 1, 0, 8) && state[4] == 9);
    EXPECT(teyk_resume(BYTES("a b ."), 7, 2, NUMBERS(state), NUMBERS(records), NUMBERS(answer)) == TEYK_WORK_LIMIT);
    EXPECT(told(answer, 15, 8, 0, 1) && told(state, 1, 1, 0, 8));
    EXPECT(teyk_resume(BYTES("a b ."), 7, UINT64_MAX, NUMBERS(state), NUMBERS(records), NUMBERS(answer)) == TEYK_HALF_SYMBOL);
    EXPECT(told(answer, 22, 11, 1, 5) && records[1] == 9 && told(state, 5, 5, 22, 11) && state[4] == 9);
    EXPECT(teyk_resume(BYTES("a b ."), 0, 0, NUMBERS(state), NUMBERS(records), NUMBERS(answer)) == TEYK_HALF_SYMBOL);
    EXPECT(told(answer, 22, 11, 0, 5) && told(state, 5, 5, 22, 11));
    EXPECT(teyk_resume(BYTES("a"), 0, 0, NUMBERS(state), NUMBERS(records), NUMBERS(answer)) == TEYK_BAD_RECORD);
    EXPECT(told(answer, 20, 0, 0, 5) && told(state, 5, 5, 22, 11));
    EXPECT(teyk_resume(BYTES("\377"), 3, 0, NUMBERS(state), NUMBERS(records), NUMBERS(answer)) == TEYK_NOT_UTF8);
    EXPECT(told(answer, 11, 3, 0, 0) && told(state, 5, 5, 22, 11));
    /* a code that no text is answered any more is repeated all the same, where a caller kept it */
    state[2] = TEYK_UNRECOGNIZED_TOKEN;
    EXPECT(teyk_resume(BYTES("a b ."), 0, 0, NUMBERS(state), NUMBERS(records), NUMBERS(answer)) == TEYK_UNRECOGNIZED_TOKEN);
    EXPECT(told(answer, 1, 11, 0, 5) && told(state, 5, 5, 1, 11));
    state[2] = 30;
    EXPECT(teyk_resume(BYTES("\377"), 3, 0, NUMBERS(state), NUMBERS(records), NUMBERS(answer)) == TEYK_BAD_RECORD);
    EXPECT(told(answer, 20, 0, 0, 5) && told(state, 5, 5, 30, 11));
    state[2] = TEYK_ENDED;
    EXPECT(teyk_resume(BYTES("a b ."), 3, 0, NUMBERS(state), NUMBERS(records), NUMBERS(answer)) == TEYK_END);
    EXPECT(told(answer, 0, 0, 0, 5) && told(state, 5, 5, 32, 11));
    answer[0] = 77;
    EXPECT(teyk_resume(BYTES("a"), 0, 9, state, 3, NUMBERS(records), NUMBERS(answer)) == TEYK_NO_ROOM && answer[0] == 77);
    EXPECT(teyk_resume(BYTES("a"), 0, 9, NUMBERS(state), NUMBERS(records), answer, 3) == TEYK_NO_ROOM && answer[0] == 77);
}

static void names(void)
{
    uint64_t answer[2] = {9, 9}, most = 0;
    uint8_t buffer[TEYK_NAME_MOST + 1];
    memset(buffer, '.', sizeof buffer);
    EXPECT(teyk_name_of_kind(TEYK_KIND_MACRO_ID, NUMBERS(buffer), NUMBERS(answer)) == 0 && answer[0] == 7 && answer[1] == 9);
    EXPECT(!memcmp(buffer, "MacroId....", 11));
    EXPECT(teyk_name_of_code(TEYK_STALE_RECORDS, NUMBERS(buffer), NUMBERS(answer)) == 0 && answer[0] == 12);
    EXPECT(!memcmp(buffer, "StaleRecords..", 14));
    EXPECT(teyk_name_of_kind(TEYK_KINDS, NUMBERS(buffer), NUMBERS(answer)) == TEYK_BAD_RECORD && answer[0] == 0);
    EXPECT(teyk_name_of_code(0, NUMBERS(buffer), NUMBERS(answer)) == TEYK_BAD_RECORD && answer[0] == 0);
    EXPECT(teyk_name_of_code(30, buffer, 0, NUMBERS(answer)) == TEYK_BAD_RECORD && answer[0] == 0);
    EXPECT(teyk_name_of_code(TEYK_BAD_MARK, buffer, 6, NUMBERS(answer)) == TEYK_NO_ROOM && answer[0] == 0);
    EXPECT(teyk_name_of_kind(0, NUMBERS(buffer), answer, 0) == TEYK_NO_ROOM && answer[0] == 0);
    EXPECT(!memcmp(buffer, "StaleRecords..", 14));
    for (uint64_t kind = 0; kind < TEYK_KINDS; kind++) {
        EXPECT(teyk_name_of_kind(kind, buffer, TEYK_NAME_MOST, NUMBERS(answer)) == 0);
        most = most < answer[0] ? answer[0] : most;
    }
    EXPECT(most == TEYK_NAME_MOST);
}

static void expansions(void)
{
    uint64_t answer[4];
    uint8_t buffer[8] = "........";
    EXPECT(teyk_expand(BYTES("plain"), 3, buffer, 8, 2, NUMBERS(answer)) == TEYK_END && told(answer, 0, 0, 0, 5));
    EXPECT(teyk_expand(BYTES("a\\x7F\\n"), 3, buffer, 8, 2, NUMBERS(answer)) == TEYK_END && told(answer, 0, 1, 2, 5));
    EXPECT(!memcmp(buffer, "..a\177\n...", 8));
    EXPECT(teyk_expand(BYTES("\\xFF"), 3, buffer, 8, 2, NUMBERS(answer)) == TEYK_UNRECOGNIZED_ESCAPE && told(answer, 4, 0, 0, 0));
    EXPECT(teyk_expand(BYTES("\\"), 3, buffer, 8, 2, NUMBERS(answer)) == TEYK_TRAILING_BACKSLASH && told(answer, 3, 0, 0, 0));
    EXPECT(teyk_expand(BYTES("\\n"), 3, buffer, 8, 8, NUMBERS(answer)) == TEYK_NO_ROOM && told(answer, 3, 0, 0, 0));
    EXPECT(teyk_expand(BYTES("\\n"), 3, buffer, 8, 0, answer, 3) == TEYK_NO_ROOM && !memcmp(buffer, "..a\177\n...", 8));
}

/* LF, CR LF and a lone CR; é, U+10000 and U+FFFF */
#define LINES "a\n\303\251b\r\n\360\220\200\200c\r\357\277\277"

static int stands(const uint8_t *text, size_t length, uint64_t place, uint64_t line, uint64_t column)
{
    uint64_t answer[3] = {9, 9, 9};
    return teyk_place(text, length, place, NUMBERS(answer)) == 0 && answer[0] == line && answer[1] == column && answer[2] == 9;
}

static int found(const uint8_t *text, size_t length, uint64_t line, uint64_t column, uint64_t place)
{
    uint64_t answer[2] = {9, 9};
    return teyk_place_at(text, length, line, column, NUMBERS(answer)) == 0 && answer[0] == place && answer[1] == 9;
}

static void places(void)
{
    EXPECT(stands(BYTES(LINES), 0, 0, 0) && stands(BYTES(LINES), 1, 0, 1));
    EXPECT(stands(BYTES(LINES), 2, 1, 0) && stands(BYTES(LINES), 4, 1, 1));
    EXPECT(stands(BYTES(LINES), 7, 2, 0) && stands(BYTES(LINES), 11, 2, 2));
    EXPECT(stands(BYTES(LINES), 12, 2, 3) && stands(BYTES(LINES), 13, 3, 0));
    /* inside a character, between CR and LF, at the end and beyond it */
    EXPECT(stands(BYTES(LINES), 3, 1, 0) && stands(BYTES(LINES), 10, 2, 0) && stands(BYTES(LINES), 15, 3, 0));
    EXPECT(stands(BYTES(LINES), 5, 1, 2) && stands(BYTES(LINES), 6, 1, 3));
    EXPECT(stands(BYTES(LINES), 16, 3, 1) && stands(BYTES(LINES), 17, 3, 1) && stands(BYTES(LINES), UINT64_MAX, 3, 1));
    /* LF CR is two ends, and a CR may be the last character */
    EXPECT(stands(BYTES("\n\r"), 1, 1, 0) && stands(BYTES("\n\r"), 2, 2, 0) && stands(BYTES(""), 1, 0, 0));
}

static void places_back(void)
{
    EXPECT(found(BYTES(LINES), 0, 0, 0) && found(BYTES(LINES), 1, 0, 2) && found(BYTES(LINES), 1, 1, 4));
    EXPECT(found(BYTES(LINES), 2, 0, 7) && found(BYTES(LINES), 2, 2, 11) && found(BYTES(LINES), 3, 0, 13) && found(BYTES(LINES), 3, 1, 16));
    /* beyond the line, inside a pair, beyond the last line */
    EXPECT(found(BYTES(LINES), 0, 2, 1) && found(BYTES(LINES), 1, 3, 5) && found(BYTES(LINES), 2, UINT64_MAX, 12) && found(BYTES(LINES), 3, 2, 16));
    EXPECT(found(BYTES(LINES), 2, 1, 7));
    EXPECT(found(BYTES(LINES), 4, 0, 16) && found(BYTES(LINES), UINT64_MAX, UINT64_MAX, 16));
    EXPECT(found(BYTES("\n\r"), 1, 9, 1) && found(BYTES("\n\r"), 2, 0, 2) && found(BYTES(""), 0, 1, 0));
}

static void places_refused(void)
{
    uint64_t answer[2] = {9, 9};
    const size_t length = (size_t)TEYK_TEXT_LIMIT + 1;
    uint8_t *text = mmap(NULL, length, PROT_READ | PROT_WRITE, MAP_PRIVATE | MAP_ANONYMOUS | MAP_NORESERVE, -1, 0);
    EXPECT(teyk_place(BYTES("a\n\303"), 1, NUMBERS(answer)) == TEYK_NOT_UTF8 && answer[0] == 2 && answer[1] == 0);
    EXPECT(teyk_place_at(BYTES("a\377"), 9, 9, NUMBERS(answer)) == TEYK_NOT_UTF8 && answer[0] == 1 && answer[1] == 0);
    EXPECT(text != MAP_FAILED);
    if (text == MAP_FAILED)
        return;
    /* ill-formed too, and at a place that is not told */
    text[1] = 255;
    answer[0] = answer[1] = 9;
    EXPECT(teyk_place(text, length, 1, NUMBERS(answer)) == TEYK_TOO_LONG && answer[0] == 0 && answer[1] == 0);
    answer[0] = answer[1] = 9;
    EXPECT(teyk_place_at(text, length, 0, 1, NUMBERS(answer)) == TEYK_TOO_LONG && answer[0] == 0 && answer[1] == 9);
    answer[0] = answer[1] = 77;
    EXPECT(teyk_place(text, length, 1, answer, 1) == TEYK_NO_ROOM && answer[0] == 77 && answer[1] == 77);
    EXPECT(teyk_place_at(text, length, 0, 1, answer, 0) == TEYK_NO_ROOM && answer[0] == 77 && answer[1] == 77);
    munmap(text, length);
}

/* ---- the same once more, by the request's words alone: where the lines of a well-formed text start and stop, and the units of its characters */
#define MOST 5 /* characters of a text */

static size_t width(uint8_t first)
{
    return first < 0x80 ? 1 : first < 0xE0 ? 2 : first < 0xF0 ? 3 : 4;
}

static uint32_t character(const uint8_t *at)
{
    uint32_t c = width(*at) == 1 ? *at : *at & (0x7F >> width(*at));
    for (size_t i = 1; i < width(*at); i++)
        c = c << 6 | (at[i] & 0x3F);
    return c;
}

static uint64_t units(const uint8_t *at)
{
    return character(at) > 0xFFFF ? 2 : 1;
}

/* a line stops before its CR or LF */
static size_t split(const uint8_t *text, size_t length, size_t *start, size_t *stop)
{
    size_t lines = 0;
    start[0] = 0;
    for (size_t i = 0; i < length; i++) {
        if (text[i] != '\n' && text[i] != '\r')
            continue;
        stop[lines++] = i;
        if (text[i] == '\r' && i + 1 < length && text[i + 1] == '\n')
            i++;
        start[lines] = i + 1;
    }
    stop[lines++] = length;
    return lines;
}

static int place_agrees(const uint8_t *text, size_t length, const size_t *start, size_t lines, size_t place)
{
    size_t at = place < length ? place : length, line = lines - 1;
    uint64_t column = 0;
    while (at < length && (text[at] & 0xC0) == 0x80)
        at--;
    while (start[line] > at)
        line--;
    for (size_t i = start[line]; i < at; i += width(text[i]))
        column += units(text + i);
    return stands(text, length, place, line, column);
}

static int place_at_agrees(const uint8_t *text, size_t length, const size_t *start, const size_t *stop, size_t lines, size_t line,
                           uint64_t column)
{
    uint64_t left = column;
    size_t at = line < lines ? start[line] : length;
    while (line < lines && at < stop[line] && units(text + at) <= left) {
        left -= units(text + at);
        at += width(text[at]);
    }
    return found(text, length, line, column, at);
}

static void differs(const char *what, const uint8_t *text, size_t length, size_t a, size_t b)
{
    wrong++;
    printf("%s %zu %zu differs in the text", what, a, b);
    for (size_t i = 0; i < length; i++)
        printf(" %02X", text[i]);
    printf("\n");
}

static uint64_t texts, there, back;

/* each place of a text and two beyond it, each line and column and some beyond them */
static void compare(const uint8_t *text, size_t length)
{
    size_t start[MOST + 1], stop[MOST + 1], lines = split(text, length, start, stop);
    texts++;
    for (size_t place = 0; place < length + 3; place++, there++)
        if (!place_agrees(text, length, start, lines, place))
            differs("teyk_place", text, length, place, 0);
    for (size_t line = 0; line < MOST + 3; line++)
        for (size_t column = 0; column < 2 * MOST + 2; column++, back++)
            if (!place_at_agrees(text, length, start, stop, lines, line, column))
                differs("teyk_place_at", text, length, line, column);
}

/* the text itself, then each that goes on with one more character */
static void compare_all(uint8_t *text, size_t length, int more)
{
    static const char *const alphabet[] = {"a", "\n", "\r", "\303\251", "\357\277\277", "\360\237\230\200"};
    compare(text, length);
    for (size_t i = 0; more && i < sizeof alphabet / sizeof *alphabet; i++) {
        memcpy(text + length, alphabet[i], strlen(alphabet[i]));
        compare_all(text, length + strlen(alphabet[i]), more - 1);
    }
}

static void places_compared(void)
{
    uint8_t text[4 * MOST];
    compare_all(text, 0, MOST);
    EXPECT(texts == 9331 && there == 117573 && back == 9331 * (MOST + 3) * (2 * MOST + 2));
}

/* ---- what is unknown once more, by the request's words alone: half a symbol, a character that starts nothing, or 0 for neither */
static int at_most(const uint8_t *text, size_t at, size_t length)
{
    return at < length ? text[at] : -1;
}

static uint64_t half_if(int half)
{
    return half ? TEYK_HALF_SYMBOL : 0;
}

static uint64_t unknown(const uint8_t *text, size_t at, size_t length)
{
    int c = text[at], next = at_most(text, at + 1, length), third = at_most(text, at + 2, length), fourth = at_most(text, at + 3, length);
    if (c == '.' || c == '~')
        return half_if(next != c);
    if (c == '-')
        return half_if(next != '>');
    if (c == '/')
        return half_if(next != '/' && next != '*');
    if (c == '@')
        return half_if(next != 'L' && next != 'R');
    if (c == '=')
        return half_if(next == '>' && third == '@' && fourth != 'L' && fourth != 'R');
    if ((c >= 'a' && c <= 'z') || (c >= 'A' && c <= 'Z') || (c >= '\t' && c <= '\r') || (c && strchr(" _!#&'()*+,:;<>?[]`{}\"", c)))
        return 0;
    return c == 0303 ? 0 : TEYK_STRAY_CHARACTER; /* of the letters beyond ASCII only \303\251 is asked about */
}

static uint64_t looked_at, halves, strays;

/* 1 is never answered; 22 and 23 are those of the place that is told; and what starts so is refused there at once */
static void unknown_compare(const uint8_t *text, size_t length)
{
    uint64_t records[TEYK_RECORD * 4 * MOST], answer[TEYK_RUN_ANSWER], first = length ? unknown(text, 0, length) : 0;
    uint64_t code = teyk_run(text, length, 0, UINT64_MAX, NUMBERS(records), NUMBERS(answer));
    looked_at++;
    halves += code == TEYK_HALF_SYMBOL;
    strays += code == TEYK_STRAY_CHARACTER;
    if (code == TEYK_UNRECOGNIZED_TOKEN || ((code == TEYK_HALF_SYMBOL || code == TEYK_STRAY_CHARACTER) && code != unknown(text, answer[1], length)))
        differs("the code at", text, length, code, answer[1]);
    if (first && (code != first || answer[1] || answer[2]))
        differs("the first code", text, length, code, first);
}

static void unknown_compare_all(const char *const *alphabet, size_t letters, uint8_t *text, size_t length, int more)
{
    unknown_compare(text, length);
    for (size_t i = 0; more && i < letters; i++) {
        memcpy(text + length, alphabet[i], strlen(alphabet[i]));
        unknown_compare_all(alphabet, letters, text, length + strlen(alphabet[i]), more - 1);
    }
}

static void unknowns_compared(void)
{
    static const char *const alphabet[] = {".", "~", "-", "/", "@", "=", ">", "L", "R", "x", "*", "\n", "#", "!", "[", "]", "'", "$", "1", "\303\251", "\342\202\254"};
    uint8_t text[4 * MOST];
    unknown_compare_all(NUMBERS(alphabet), text, 0, 4);
    /* one and two characters of ASCII, each with each */
    for (text[0] = 0; text[0] < 128; text[0]++) {
        unknown_compare(text, 1);
        for (text[1] = 0; text[1] < 128; text[1]++)
            unknown_compare(text, 2);
    }
    /* to 165,322 of these texts the Rust answers 1 */
    EXPECT(looked_at == 204205 + 128 + 128 * 128 && halves + strays == 165322 && halves > strays && strays > 60000);
}

/* ---- depths once more, by the rules' words alone: from teyk_run's records, and the characters before and in them */
#define LONGEST 64 /* bytes of a text */

static int pair(const uint8_t *text, size_t at, size_t to, const char *two)
{
    return at_most(text, at, to) == two[0] && at_most(text, at + 1, to) == two[1];
}

static uint64_t greater(uint64_t a, uint64_t b)
{
    return a < b ? b : a;
}

/* the block comment at a place: how many are open at once, at most; the place becomes its end */
static uint64_t block_depth(const uint8_t *text, size_t *at, size_t to)
{
    uint64_t open = 0, most = 0;
    do {
        int opens = pair(text, *at, to, "/*"), closes = pair(text, *at, to, "*/");
        open = open + opens - closes;
        most = greater(most, open);
        *at += opens || closes ? 2 : 1;
    } while (open && *at < to);
    return most;
}

static size_t line_end(const uint8_t *text, size_t at, size_t to)
{
    while (at < to && text[at] != '\n')
        at++;
    return at;
}

/* after the first quote that no backslash stands before */
static size_t string_end(const uint8_t *text, size_t at, size_t to)
{
    for (at++; at < to && text[at] != '"'; at++)
        at += text[at] == '\\';
    return at + 1;
}

/* a backslash, the character after it and all through the next quote; or one character, and a quote after it */
static size_t quote_end(const uint8_t *text, size_t at, size_t to)
{
    at++;
    if (at_most(text, at, to) != '\\') {
        at += width(text[at]);
        return at + (at_most(text, at, to) == '\'');
    }
    at++;
    at += width(text[at]);
    while (at < to && text[at] != '\'')
        at++;
    return at + 1;
}

/* of the characters beyond ASCII only \303\251 is asked about */
static int in_word(int c)
{
    return (c >= 'a' && c <= 'z') || (c >= 'A' && c <= 'Z') || (c >= '0' && c <= '9') || c == '_' || c >= 0x80;
}

/* a hash after the letter r: a regex that is closed by a quote and one hash fewer than it has, or a word */
static size_t hashed_end(const uint8_t *text, size_t at, size_t to)
{
    size_t hashes = 0, after = 0;
    for (at++; at_most(text, at, to) == '#'; at++)
        hashes++;
    if (at_most(text, at, to) != '"') {
        while (in_word(at_most(text, at, to)))
            at++;
        return at;
    }
    do {
        for (at++; at < to && text[at] != '"'; at++)
            ;
        for (after = 0; after + 1 < hashes && at_most(text, at + 1 + after, to) == '#'; after++)
            ;
    } while (at < to && after + 1 < hashes);
    return at + 1 + after;
}

/* what code passes at once from a place that starts no comment: its end */
static size_t code_step(const uint8_t *text, size_t at, size_t to)
{
    if (text[at] == '"')
        return string_end(text, at, to);
    if (text[at] == '\'')
        return quote_end(text, at, to);
    return pair(text, at, to, "r#") ? hashed_end(text, at, to) : at + 1;
}

/* of the block comments in a stretch of characters, which are code or a gap: the greatest depth */
static uint64_t stretch_depth(const uint8_t *text, size_t at, size_t to, int in_code)
{
    uint64_t most = 0;
    while (at < to) {
        if (pair(text, at, to, "/*"))
            most = greater(most, block_depth(text, &at, to));
        else if (pair(text, at, to, "//"))
            at = line_end(text, at, to);
        else
            at = in_code ? code_step(text, at, to) : at + 1;
    }
    return most;
}

/* where the gap after a record starts: one character is dropped after an attribute */
static size_t gap_start(const uint8_t *text, size_t length, const uint64_t *record, uint64_t shift)
{
    size_t end = record[2] - shift;
    return end + (record[0] == TEYK_KIND_SHEBANG_ATTRIBUTE && end < length ? width(text[end]) : 0);
}

static uint64_t code_of(const uint8_t *text, const uint64_t *record, uint64_t shift)
{
    int code = record[0] == TEYK_KIND_USE || record[0] == TEYK_KIND_EQUALS_GREATER_THAN_CODE || record[0] == TEYK_KIND_EQUALS_GREATER_THAN_QUESTION_CODE;
    return code ? stretch_depth(text, record[3] - shift, record[4] - shift, 1) : 0;
}

/* each record's gap and code, two numbers a record, and then the last gap, which is 0 unless the text was read to its end */
static void depths_of(uint64_t *depths, const uint8_t *text, size_t length, uint64_t shift, const uint64_t *records, const uint64_t *answer)
{
    size_t at = 0;
    for (uint64_t i = 0; i < answer[2]; i++) {
        const uint64_t *record = records + TEYK_RECORD * i;
        *depths++ = stretch_depth(text, at, record[1] - shift, 0);
        *depths++ = code_of(text, record, shift);
        at = gap_start(text, length, record, shift);
    }
    *depths = answer[0] ? 0 : stretch_depth(text, at, length, 0);
}

/* teyk_read beside teyk_run, with the same shift, limit and room: what is told, and nothing beyond it. The depths are left behind */
static uint64_t read_compare(uint64_t *depths, const uint8_t *text, size_t length, uint64_t shift, uint64_t limit, size_t room)
{
    uint64_t five[TEYK_RECORD * LONGEST], nine[TEYK_READ_RECORD * LONGEST + 8], ran[TEYK_RUN_ANSWER], read[TEYK_READ_ANSWER + 1];
    teyk_run(text, length, shift, limit, five, TEYK_RECORD * room, NUMBERS(ran));
    depths_of(depths, text, length, shift, five, ran);
    memset(nine, 77, (TEYK_READ_RECORD * room + 8) * sizeof *nine);
    memset(read, 77, sizeof read);
    const uint64_t old = read[TEYK_READ_ANSWER], *last = depths + 2 * ran[2];
    if (teyk_read(text, length, TEYK_OLD_READING, shift, limit, nine, TEYK_READ_RECORD * room + 8, NUMBERS(read)) != ran[0] || memcmp(read, ran, sizeof ran))
        differs("teyk_read's answer", text, length, read[0], ran[0]);
    if (read[4] != *last || read[5] != TEYK_NOT_TOLD || read[6] != old)
        differs("the last gap's depth", text, length, read[4], *last);
    for (uint64_t i = 0; i < ran[2]; i++) {
        const uint64_t *record = nine + TEYK_READ_RECORD * i;
        if (memcmp(record, five + TEYK_RECORD * i, TEYK_RECORD * sizeof *five) || record[7] != TEYK_NOT_TOLD || record[8] != TEYK_NOT_TOLD)
            differs("teyk_read's record", text, length, i, record[0]);
        if (record[5] != depths[2 * i])
            differs("the gap's depth", text, length, i, record[5]);
        if (record[6] != depths[2 * i + 1])
            differs("the code's depth", text, length, i, record[6]);
    }
    for (size_t i = TEYK_READ_RECORD * ran[2]; i < TEYK_READ_RECORD * room + 8; i++)
        if (nine[i] != old)
            differs("a number beyond the records", text, length, i, nine[i]);
    return ran[2];
}

static uint64_t read_texts, deep_gaps, deep_codes, deepest_gap, deepest_code;

/* with all the room that is wanted, with room for one record, and with half of the work */
static void read_compares(const uint8_t *text, size_t length)
{
    uint64_t depths[2 * LONGEST + 1], gap = 0, code = 0, count = read_compare(depths, text, length, 7, UINT64_MAX, length);
    for (uint64_t i = 0; i < count; i++) {
        gap = greater(gap, depths[2 * i]);
        code = greater(code, depths[2 * i + 1]);
    }
    gap = greater(gap, depths[2 * count]);
    read_texts++;
    deep_gaps += gap >= 2;
    deep_codes += code >= 2;
    deepest_gap = greater(deepest_gap, gap);
    deepest_code = greater(deepest_code, code);
    read_compare(depths, text, length, 0, UINT64_MAX, 1);
    read_compare(depths, text, length, UINT64_MAX - length, length / 2, length);
}

/* ---- the sheet once more, by the request's words alone: from teyk_run's records, and the characters of the gaps between them */
static size_t counted(const uint8_t *text, size_t from, size_t to)
{
    size_t n = 0;
    for (size_t i = from; i < to; i += width(text[i]))
        n++;
    return n;
}

/* the comment at a place that has a slash: where it ends. A block is closed where as many are closed as were opened */
static size_t comment_end(const uint8_t *text, size_t at, size_t to)
{
    size_t open = 0;
    if (text[at + 1] == '/') {
        while (at < to && text[at] != '\n')
            at++;
        return at;
    }
    do {
        if (text[at] == '/' && text[at + 1] == '*')
            open++, at += 2;
        else if (text[at] == '*' && text[at + 1] == '/')
            open--, at += 2;
        else
            at++;
    } while (open && at < to);
    return at;
}

static void gap_adds(uint64_t *adds, const uint8_t *text, size_t at, size_t to)
{
    while (at < to) {
        size_t end = text[at] == '/' ? comment_end(text, at, to) : at + width(text[at]);
        adds[text[at] == '/' ? TEYK_SHEET_IN_COMMENTS : TEYK_SHEET_IN_WHITESPACE] += counted(text, at, end);
        at = end;
    }
}

/* what a text adds to a sheet, and the code and the place of it */
static void text_adds(uint64_t *adds, uint64_t *answer, const uint8_t *text, size_t length)
{
    uint64_t records[TEYK_RECORD * LONGEST], depths[2 * LONGEST + 1];
    size_t at = 0;
    memset(adds, 0, TEYK_SHEET * sizeof *adds);
    teyk_run(text, length, 0, (uint64_t)1 << 50, NUMBERS(records), answer, TEYK_RUN_ANSWER);
    adds[TEYK_SHEET_TAKEN] = 1;
    if (answer[0]) {
        adds[TEYK_SHEET_TALLY + answer[0]] = 1;
        return;
    }
    for (const uint64_t *r = records; r < records + TEYK_RECORD * answer[2]; r += TEYK_RECORD) {
        int dropped = r[0] == TEYK_KIND_SHEBANG_ATTRIBUTE && r[2] < length;
        gap_adds(adds, text, at, r[1]);
        adds[r[0]]++;
        adds[TEYK_SHEET_IN_TOKENS] += counted(text, r[1], r[2]);
        adds[TEYK_SHEET_DROPPED] += dropped;
        adds[TEYK_SHEET_FAILED] += r[0] == TEYK_KIND_HASH;
        at = r[2] + (dropped ? width(text[r[2]]) : 0);
    }
    gap_adds(adds, text, at, length);
    adds[TEYK_SHEET_ADVANCES] = answer[3];
    depths_of(depths, text, length, 0, records, answer);
    for (uint64_t i = 0; i <= 2 * answer[2]; i++)
        adds[TEYK_SHEET_DEEPEST] = greater(adds[TEYK_SHEET_DEEPEST], depths[i]);
}

#define BEYOND 2 /* numbers after the sheet, which stay */

static uint64_t sheet[TEYK_SHEET + BEYOND], sums[TEYK_SHEET], taken_texts, ended, tallied, unclosed, full_sheets;

/* a sheet with 1,024 texts: one more is refused, and it holds their sums */
static void full(const uint8_t *text, size_t length)
{
    uint64_t answer[3] = {9, 9, 9};
    full_sheets++;
    EXPECT(teyk_sheet_take(text, length, NUMBERS(sheet), NUMBERS(answer)) == TEYK_SHEET_FULL);
    EXPECT(answer[0] == 21 && answer[1] == 0 && answer[2] == 9);
    EXPECT(!memcmp(sheet, sums, sizeof sums) && sheet[TEYK_SHEET_TAKEN] == TEYK_SHEET_TEXTS);
    memset(sheet, 0, sizeof sums);
    memset(sums, 0, sizeof sums);
}

/* the text is taken by the one sheet that all are taken by, until it is full */
static void sheet_compare(const uint8_t *text, size_t length)
{
    uint64_t adds[TEYK_SHEET], ran[TEYK_RUN_ANSWER], answer[3] = {9, 9, 9};
    text_adds(adds, ran, text, length);
    taken_texts++;
    ended += ran[0] == 0;
    tallied += ran[0] != 0;
    unclosed += ran[0] == TEYK_UNTERMINATED_BLOCK_COMMENT;
    if (teyk_sheet_take(text, length, NUMBERS(sheet), NUMBERS(answer)) != ran[0] || answer[0] != ran[0] || answer[1] != ran[1] || answer[2] != 9)
        differs("teyk_sheet_take", text, length, answer[0], answer[1]);
    for (size_t i = 0; i < TEYK_SHEET; i++) {
        sums[i] = i == TEYK_SHEET_DEEPEST ? greater(sums[i], adds[i]) : sums[i] + adds[i];
        if (sheet[i] != sums[i])
            differs("the sheet's number", text, length, i, sheet[i]);
        sums[i] = sheet[i];
    }
    EXPECT(sheet[TEYK_SHEET] == 7 && sheet[TEYK_SHEET + 1] == UINT64_MAX);
    if (sums[TEYK_SHEET_TAKEN] == TEYK_SHEET_TEXTS)
        full(text, length);
}

/* ---- the kept reading once more, by the request's words alone: single calls of the old reading, and a reader of code of its own */
struct stop {
    uint64_t code;
    size_t place; /* of the refusal, or where the code ends */
};

static struct stop stop(uint64_t code, size_t place)
{
    return (struct stop){code, place};
}

/* what a quote in code covers: a closed literal, or one character, may end the text */
static struct stop kept_quote(const uint8_t *text, size_t o, size_t to)
{
    size_t at = o + 1;
    if (at >= to)
        return stop(TEYK_UNTERMINATED_CHARACTER_LITERAL, o);
    if (text[at] != '\\') {
        at += width(text[at]);
        return stop(0, at + (at_most(text, at, to) == '\''));
    }
    at++;
    if (at < to)
        at += width(text[at]);
    while (at < to && text[at] != '\'')
        at++;
    return at < to ? stop(0, at + 1) : stop(TEYK_UNTERMINATED_CHARACTER_LITERAL, o);
}

/* a letter r with a hash after it: a regex with as many hashes after its closing quote, or a word */
static struct stop kept_hashes(const uint8_t *text, size_t o, size_t to)
{
    size_t hashes = 0, at = o + 1;
    for (; at_most(text, at, to) == '#'; at++)
        hashes++;
    if (at >= to)
        return stop(TEYK_UNTERMINATED_STRING_LITERAL, o);
    if (text[at] != '"') {
        size_t from = at;
        while (in_word(at_most(text, at, to)))
            at++;
        return at == from || (text[from] >= '0' && text[from] <= '9') ? stop(TEYK_EXPECTED_STRING_LITERAL, from) : stop(0, at);
    }
    for (at++; at < to; at++) {
        size_t after = 0;
        while (text[at] == '"' && after < hashes && at_most(text, at + 1 + after, to) == '#')
            after++;
        if (text[at] == '"' && after == hashes)
            return stop(0, at + 1 + hashes);
    }
    return stop(TEYK_UNTERMINATED_STRING_LITERAL, o);
}

/* the block comment at a place */
static struct stop block_end(const uint8_t *text, size_t o, size_t to)
{
    size_t open = 0, at = o;
    do {
        int opens = pair(text, at, to, "/*"), closes = pair(text, at, to, "*/");
        open = open + opens - closes;
        at += opens || closes ? 2 : 1;
    } while (open && at < to);
    return open ? stop(TEYK_UNTERMINATED_BLOCK_COMMENT, o) : stop(0, at);
}

/* what code passes at once from a place */
static struct stop kept_step(const uint8_t *text, size_t at, size_t to)
{
    if (text[at] == '\'')
        return kept_quote(text, at, to);
    if (text[at] == '"')
        return string_end(text, at, to) <= to ? stop(0, string_end(text, at, to)) : stop(TEYK_UNTERMINATED_STRING_LITERAL, at);
    if (pair(text, at, to, "//"))
        return stop(0, line_end(text, at, to));
    if (pair(text, at, to, "/*"))
        return block_end(text, at, to);
    return pair(text, at, to, "r#") ? kept_hashes(text, at, to) : stop(0, at + 1);
}

/* the code from a place, of a token that starts at `start` */
static struct stop kept_code(const uint8_t *text, size_t at, size_t to, size_t start)
{
    size_t open = 0;
    while (at < to) {
        int c = text[at];
        if (!open && strchr(",;)]}", c))
            return stop(0, at);
        open = open + (c == '(' || c == '[' || c == '{') - (c == ')' || c == ']' || c == '}');
        struct stop step = kept_step(text, at, to);
        if (step.code)
            return step;
        at = step.place;
    }
    return open ? stop(TEYK_UNTERMINATED_CODE, start) : stop(0, at);
}

/* where the token after a gap starts; of the white space beyond ASCII only U+3000 is asked about */
static size_t after_gap(const uint8_t *text, size_t at, size_t to)
{
    for (;;) {
        if (at_most(text, at, to) == ' ' || at_most(text, at, to) == '\n')
            at++;
        else if (at + 3 <= to && !memcmp(text + at, "\343\200\200", 3))
            at += 3;
        else if (pair(text, at, to, "//"))
            at = line_end(text, at, to);
        else if (pair(text, at, to, "/*"))
            block_depth(text, &at, to);
        else
            return at;
    }
}

/* where the code of the token at a place starts, and its kind; 0 where it takes none */
static size_t code_start(const uint8_t *text, size_t o, size_t to, uint64_t *kind)
{
    *kind = TEYK_KIND_USE;
    if (pair(text, o, to, "us") && at_most(text, o + 2, to) == 'e' && !in_word(at_most(text, o + 3, to)))
        return o + 3;
    *kind = at_most(text, o + 2, to) == '?' ? TEYK_KIND_EQUALS_GREATER_THAN_QUESTION_CODE : TEYK_KIND_EQUALS_GREATER_THAN_CODE;
    return pair(text, o, to, "=>") && o + 2 < to && text[o + 2] != '@' ? o + 2 + (text[o + 2] == '?') : 0;
}

static uint64_t kept_texts, kept_other;

/* a call from a place: the record, or how it ended. All but code is the old reading's, by one call of it */
static struct stop kept_call(const uint8_t *text, size_t length, size_t at, uint64_t *record, int *got)
{
    uint64_t state[TEYK_STATE] = {at, 0, 0, 0}, answer[TEYK_RUN_ANSWER], kind;
    size_t o = after_gap(text, at, length), from = o < length ? code_start(text, o, length, &kind) : 0;
    if (!from) {
        teyk_resume(text, length, 0, UINT64_MAX, NUMBERS(state), record, TEYK_RECORD, NUMBERS(answer));
        *got = answer[2] == 1;
        return *got ? stop(0, record[2]) : stop(answer[0], answer[1]);
    }
    struct stop end = kept_code(text, from, length, o);
    const uint64_t want[TEYK_RECORD] = {kind, o, end.place, from, end.place};
    memcpy(record, want, sizeof want);
    *got = !end.code;
    return end;
}

static void kept_compare(const uint8_t *text, size_t length)
{
    uint64_t nine[TEYK_READ_RECORD * LONGEST], read[TEYK_READ_ANSWER], five[TEYK_RECORD * LONGEST], old[TEYK_RUN_ANSWER], record[TEYK_RECORD], count = 0;
    struct stop end = stop(0, 0);
    int got = 1, other = 0;
    teyk_read(text, length, TEYK_KEPT_READING, 0, UINT64_MAX, NUMBERS(nine), NUMBERS(read));
    teyk_run(text, length, 0, UINT64_MAX, NUMBERS(five), NUMBERS(old));
    for (; end = kept_call(text, length, end.place, record, &got), got; count++) {
        if (count >= read[2] || memcmp(nine + TEYK_READ_RECORD * count, record, sizeof record)) {
            differs("a record of the kept reading", text, length, count, record[0]);
            return;
        }
        other |= count >= old[2] || memcmp(five + TEYK_RECORD * count, record, sizeof record);
    }
    if (read[0] != end.code || read[1] != end.place || read[2] != count)
        differs("the kept reading's answer", text, length, read[0], end.code);
    if (!end.code && !memchr(text, '#', length) && read[3] != counted(text, 0, length))
        differs("the kept reading's advances", text, length, read[3], length);
    kept_texts++;
    kept_other += other || old[0] != end.code || old[1] != end.place || old[2] != count;
}

static void sheet_compare_all(const char *const *alphabet, size_t letters, uint8_t *text, size_t length, int more)
{
    sheet_compare(text, length);
    read_compares(text, length);
    kept_compare(text, length);
    for (size_t i = 0; more && i < letters; i++) {
        memcpy(text + length, alphabet[i], strlen(alphabet[i]));
        sheet_compare_all(alphabet, letters, text, length + strlen(alphabet[i]), more - 1);
    }
}

/* texts of all kinds, and longer ones of what comments are made of: the shortest that are nested have eight characters. Then marks of comments with all
 * that covers in code, and whole comments before, in and after all that may hold one. teyk_read reads them all too, in both readings */
static void sheets_compared(void)
{
    static const char *const all[] = {"a", " ", "\n", "/", "*", "#", "!", "[", "]", "\303\251", "\343\200\200"}, *const comments[] = {"/", "*", "\n"};
    static const char *const covers[] = {"/*", "*/", "/", "*", "=>", "use ", ";", "\n", "\"", "'", "\\", "r#"};
    static const char *const nested[] = {"/**/", "/*/**/*/", "/* // /* */ */", "/*/*/**/*/*/", "/*", "*/", "/", "// /*\n", "//", "\n", "=>", "=>?", "use ", ";",
                                         "(", ")", "\"\\\"/*\"", "'\"'", "'\\'/*'", "r#\"", "r#ar##\"/*\"", "`/*`", "#![/*]", "\303\251"};
    uint8_t text[LONGEST];
    sheet[TEYK_SHEET] = 7;
    sheet[TEYK_SHEET + 1] = UINT64_MAX;
    sheet_compare_all(NUMBERS(all), text, 0, MOST);
    sheet_compare_all(NUMBERS(comments), text, 0, 9);
    EXPECT(taken_texts == 177156 + 29524 && full_sheets == 201 && ended == 124493 && tallied == 82187);
    sheet_compare_all(NUMBERS(covers), text, 0, 5);
    sheet_compare_all(NUMBERS(nested), text, 0, 4);
    EXPECT(taken_texts == 177156 + 29524 + 271453 + 346201 && read_texts == taken_texts && full_sheets == 805);
    printf("depths: %" PRIu64 " texts, each read three times: %" PRIu64 " have depth 2 or more in a gap (at most %" PRIu64 "), %" PRIu64 " in code (at most %" PRIu64
           "), %" PRIu64 " a comment that is not closed\n", read_texts, deep_gaps, deepest_gap, deep_codes, deepest_code, unclosed);
    printf("kept reading: %" PRIu64 " texts, %" PRIu64 " of them answered otherwise than in the old one\n", kept_texts, kept_other);
    EXPECT(kept_texts == read_texts && kept_other == 42936);
    EXPECT(deep_gaps == 71332 && deep_codes == 12470 && unclosed == 116272 && deepest_gap == 4 && deepest_code == 4 && ended + tallied == taken_texts);
}

/* a sheet of 96 numbers with so many texts taken, and one number that is m */
static int refuses(const uint8_t *text, size_t length, uint64_t taken, size_t i, uint64_t m, uint64_t code, uint64_t place)
{
    uint64_t before[TEYK_SHEET + 1], after[TEYK_SHEET + 1], answer[3] = {9, 9, 9};
    memset(before, 0, sizeof before);
    before[TEYK_SHEET_TAKEN] = taken;
    before[i] = m;
    memcpy(after, before, sizeof before);
    return teyk_sheet_take(text, length, NUMBERS(after), NUMBERS(answer)) == code && answer[0] == code && answer[1] == place && answer[2] == 9
        && !memcmp(before, after, sizeof before);
}

static int takes(uint64_t taken, size_t i, uint64_t m)
{
    uint64_t after[TEYK_SHEET + 1] = {0}, answer[2];
    after[TEYK_SHEET_TAKEN] = taken;
    after[i] = m;
    return teyk_sheet_take(BYTES("="), NUMBERS(after), NUMBERS(answer)) == 0 && answer[0] == 0 && answer[1] == 0
        && after[TEYK_SHEET_TAKEN] == taken + 1 && after[i] == m + (i == TEYK_SHEET_TAKEN || i == TEYK_KIND_EQUALS);
}

static void sheets_refused(void)
{
    const uint64_t most = (uint64_t)1 << 50;
    const size_t length = (size_t)TEYK_TEXT_LIMIT + 1;
    uint64_t small[TEYK_SHEET], answer[2] = {77, 77};
    uint8_t *text = mmap(NULL, length, PROT_READ | PROT_WRITE, MAP_PRIVATE | MAP_ANONYMOUS | MAP_NORESERVE, -1, 0);
    EXPECT(text != MAP_FAILED);
    if (text == MAP_FAILED)
        return;
    text[1] = 255;
    /* a short answer, a short sheet, 12, 11, 21, 20: each with all that come after it */
    memset(small, 255, sizeof small);
    EXPECT(teyk_sheet_take(text, length, small, TEYK_SHEET - 1, answer, 1) == TEYK_NO_ROOM && answer[0] == 77);
    EXPECT(teyk_sheet_take(BYTES("="), small, TEYK_SHEET, answer, 1) == TEYK_NO_ROOM && answer[0] == 77);
    EXPECT(teyk_sheet_take(text, length, small, TEYK_SHEET - 1, NUMBERS(answer)) == TEYK_NO_ROOM && answer[0] == 14 && answer[1] == 0);
    EXPECT(teyk_sheet_take(BYTES("="), small, 0, NUMBERS(answer)) == TEYK_NO_ROOM && answer[0] == 14 && answer[1] == 0);
    for (size_t i = 0; i < TEYK_SHEET; i++)
        EXPECT(small[i] == UINT64_MAX);
    EXPECT(refuses(text, length, 1024, 5, UINT64_MAX, TEYK_TOO_LONG, 0) && refuses(text, length - 1, 1024, 5, UINT64_MAX, TEYK_NOT_UTF8, 1));
    EXPECT(refuses(BYTES("="), 1024, 5, UINT64_MAX, TEYK_SHEET_FULL, 0) && refuses(BYTES("."), 1024, 5, 0, TEYK_SHEET_FULL, 0));
    EXPECT(refuses(BYTES("="), UINT64_MAX, 5, 0, TEYK_SHEET_FULL, 0) && refuses(BYTES("="), 1023, 5, UINT64_MAX, TEYK_BAD_RECORD, 0));
    /* 20 exactly above 2^50 for each text taken, in any of the 96 numbers and in none beyond them */
    for (size_t i = 0; i < TEYK_SHEET; i++)
        EXPECT(i == TEYK_SHEET_TAKEN || (refuses(BYTES("="), 0, i, 1, TEYK_BAD_RECORD, 0) && refuses(BYTES("."), 3, i, 3 * most + 1, TEYK_BAD_RECORD, 0)));
    for (size_t i = 0; i < TEYK_SHEET; i++)
        EXPECT(i == TEYK_SHEET_TAKEN || (i >= TEYK_SHEET_IN_TOKENS && i <= TEYK_SHEET_FAILED) || takes(1023, i, 1023 * most));
    EXPECT(takes(0, TEYK_SHEET, UINT64_MAX) && takes(0, 0, 0) && takes(1023, TEYK_SHEET_TAKEN, 1023));
    munmap(text, length);
}

static void files(void)
{
    const uint64_t records[] = {TEYK_KIND_USE, 0, 4, 3, 4, TEYK_KIND_SEMI, 4, 5, 4, 4, 1};
    const uint64_t bad[] = {54, 0, 4, 0, 0};
    uint64_t answer[3], again[12];
    uint8_t file[28];
    memset(file, 255, sizeof file);
    memset(again, 255, sizeof again);
    EXPECT(teyk_ltk_write(NUMBERS(records), NUMBERS(file), NUMBERS(answer)) == 0 && answer[0] == 0 && answer[1] == 0 && answer[2] == 27);
    EXPECT(!memcmp(file, "LTK\1\0\2\0\0\0\15\0\0\0\0\4\0\0\0\60\4\0\0\0\5\0\0\0\377", 28));
    EXPECT(teyk_ltk_read(file, 27, NUMBERS(again), NUMBERS(answer)) == 0 && answer[0] == 0 && answer[1] == 0 && answer[2] == 2);
    EXPECT(again[0] == 13 && again[2] == 4 && again[3] == 0 && again[5] == 48 && again[9] == 4 && again[10] == UINT64_MAX);
    EXPECT(teyk_ltk_read(file, 28, NUMBERS(again), NUMBERS(answer)) == TEYK_BAD_LENGTH && answer[1] == 9 && answer[2] == 0);
    EXPECT(teyk_ltk_read(file, 27, again, 9, NUMBERS(answer)) == TEYK_NO_ROOM && answer[1] == 0);
    EXPECT(teyk_ltk_read(file, 27, again, 12, answer, 2) == TEYK_NO_ROOM);
    EXPECT(teyk_ltk_write(NUMBERS(bad), NUMBERS(file), NUMBERS(answer)) == TEYK_BAD_RECORD && answer[1] == 9 && answer[2] == 0);
    EXPECT(teyk_ltk_write(NUMBERS(records), file, 26, NUMBERS(answer)) == TEYK_NO_ROOM);
}

int main(void)
{
    runs();
    depths();
    reads();
    readings();
    resumes();
    names();
    expansions();
    places();
    places_back();
    places_refused();
    places_compared();
    unknowns_compared();
    sheets_compared();
    sheets_refused();
    files();
    printf(wrong ? "%d not so\n" : "all as the header says\n", wrong);
    return wrong != 0;
}
