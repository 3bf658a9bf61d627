/* teykonasir.h: the proved tokenizer of LALRPOP grammars, for C.
 *
 * The archive target/staticlib/libteykonasir.a is made by `tools/archives teykonasir`, for x86-64 Linux. teyk_sheet_take and teyk_read stand each in an
 * archive of its own: libteykonasir_sheet.a, made by `tools/archives teykonasir_sheet`, and libteykonasir_read.a, made by `tools/archives teykonasir_read`. A
 * program may link any of the three, and all. They need at most memcpy and memset of the C library, and take no memory beyond what is lent to
 * them and a fixed stack.
 *
 * What every function has in common
 *   - A slice is two arguments, its pointer and its length in elements. A pointer is never NULL, not even with length 0; uint64_t
 *     slices are aligned to 8; a length in bytes is at most 2^63 - 1. A slice that is written overlaps no other slice of the call.
 *   - Otherwise every input is allowed: each function answers, and ends, for all numbers and all bytes.
 *   - The result is a code: 0, or one of enum teyk_code. The first numbers of `answer` say more; how many there are stands at each
 *     function. If `answer` has fewer, the result is 14 (TEYK_NO_ROOM) and nothing at all is written. Numbers of `answer` beyond them
 *     are never written.
 *   - Nothing else is written than what is said here.
 *   - Threads: there is no state but what is lent. Every function may be called from any number of threads at once, as long as no slice
 *     that one call writes is used by another.
 *   - Stack: no function calls itself. The frames of the deepest chain of calls in the archives' code take 1,400 bytes together, those of
 *     teyk_sheet_take 1,784, and 128 below the last of them may be used; 1,200 and 1,568 were seen used on a painted stack (both by
 *     beside/stack). Where the dynamic loader binds memcpy or memset only at its first call, that call takes some 3,200 more.
 *   - Words are Unicode 15.0.0's: XID_Start, XID_Continue and White_Space.
 */
#ifndef TEYKONASIR_H
#define TEYKONASIR_H

#include <stddef.h>
#include <stdint.h>

#ifdef __cplusplus
extern "C" {
#endif

#define TEYK_VERSION "4.5.0"
#define TEYK_VERSION_MAJOR 4
#define TEYK_VERSION_MINOR 5
#define TEYK_VERSION_PATCH 0

/* The codes. 1 to 10 are LALRPOP's own. Its 1 is answered as 22 or 23 since version 4.3.0, at the same place: who wants LALRPOP's code takes both for 1.
 * No text is answered 1, nor 25 to 29 yet; only teyk_resume repeats whatever code a caller puts into its state as `done`. */
enum teyk_code {
    TEYK_END = 0, /* nothing is refused; of a run: the end of the text */
    TEYK_UNRECOGNIZED_TOKEN = 1, /* of no text: it is 22 or 23 */
    TEYK_UNTERMINATED_ESCAPE = 2, /* a backtick is not closed */
    TEYK_UNTERMINATED_ASCII_ESCAPE = 3, /* expansion: `\x` with fewer than two characters after it */
    TEYK_UNRECOGNIZED_ESCAPE = 4, /* expansion: an escape that is none */
    TEYK_UNTERMINATED_STRING_LITERAL = 5, /* a string or a regex is not closed */
    TEYK_UNTERMINATED_CHARACTER_LITERAL = 6, /* a quoted character is not closed */
    TEYK_UNTERMINATED_ATTRIBUTE = 7, /* never shown: a failed attribute is read as `#` */
    TEYK_UNTERMINATED_CODE = 8, /* the text ends in action code */
    TEYK_EXPECTED_STRING_LITERAL = 9, /* after `r` and hashes, neither a quote nor a word */
    TEYK_UNTERMINATED_BLOCK_COMMENT = 10, /* a comment is not closed */
    TEYK_NOT_UTF8 = 11, /* ill-formed UTF-8 */
    TEYK_TOO_LONG = 12, /* more than 2,147,483,647 bytes; for teyk_ltk_write, 2^32 records or more */
    TEYK_SHIFT_TOO_LARGE = 13, /* shift plus text length above 2^64 - 1 */
    TEYK_NO_ROOM = 14, /* the lent slice, or answer, is too short */
    TEYK_WORK_LIMIT = 15, /* the next call would take the advances above the limit */
    TEYK_TRAILING_BACKSLASH = 16, /* expansion: a lone last backslash */
    TEYK_BAD_MARK = 17, /* LTK: the mark is wrong or cut */
    TEYK_UNKNOWN_VERSION = 18, /* LTK: the version is not 1 */
    TEYK_BAD_LENGTH = 19, /* LTK: the length does not fit the count */
    TEYK_BAD_RECORD = 20, /* LTK: a record that no run gives; a state that is no tokenizer's; a number that has no name; no sheet */
    TEYK_SHEET_FULL = 21, /* a sheet that has taken 1,024 texts */
    TEYK_HALF_SYMBOL = 22, /* half a symbol: a lone `.` `~` `-` `/` or `@`, or `=>@` with neither L nor R after it */
    TEYK_STRAY_CHARACTER = 23, /* a character that starts nothing */
    TEYK_UNKNOWN_READING = 24, /* teyk_read: a reading that is neither 0 nor 1 */
    TEYK_TOO_DEEP = 25,
    TEYK_TEXT_MISMATCH = 26,
    TEYK_CHANGE_LIST_FULL = 27,
    TEYK_BAD_EDIT = 28,
    TEYK_STALE_RECORDS = 29
};

/* The kinds of token, in the order of their numbers. Kinds with a payload are marked; for every other, payload start and end are start. */
enum teyk_kind {
    TEYK_KIND_ENUM = 0,
    TEYK_KIND_EXTERN = 1,
    TEYK_KIND_GRAMMAR = 2,
    TEYK_KIND_MATCH = 3,
    TEYK_KIND_ELSE = 4,
    TEYK_KIND_IF = 5,
    TEYK_KIND_MUT = 6,
    TEYK_KIND_PUB = 7,
    TEYK_KIND_IN = 8,
    TEYK_KIND_TYPE = 9,
    TEYK_KIND_WHERE = 10,
    TEYK_KIND_FOR = 11,
    TEYK_KIND_DYN = 12,
    TEYK_KIND_USE = 13, /* payload: its code */
    TEYK_KIND_ESCAPE = 14, /* payload: between the backticks */
    TEYK_KIND_ID = 15, /* payload: all of it */
    TEYK_KIND_MACRO_ID = 16, /* payload: all of it */
    TEYK_KIND_LIFETIME = 17, /* payload: all of it, with its quote */
    TEYK_KIND_STRING_LITERAL = 18, /* payload: between the quotes */
    TEYK_KIND_CHAR_LITERAL = 19, /* payload: between the quotes */
    TEYK_KIND_REGEX_LITERAL = 20, /* payload: between the quotes */
    TEYK_KIND_AMPERSAND = 21, /* & */
    TEYK_KIND_BANG_EQUALS = 22, /* != */
    TEYK_KIND_BANG_TILDE = 23, /* !~ */
    TEYK_KIND_COLON = 24, /* : */
    TEYK_KIND_COLON_COLON = 25, /* :: */
    TEYK_KIND_COMMA = 26, /* , */
    TEYK_KIND_DOT_DOT = 27, /* .. */
    TEYK_KIND_EQUALS = 28, /* = */
    TEYK_KIND_EQUALS_EQUALS = 29, /* == */
    TEYK_KIND_EQUALS_GREATER_THAN_CODE = 30, /* =>; payload: its code */
    TEYK_KIND_EQUALS_GREATER_THAN_QUESTION_CODE = 31, /* =>?; payload: its code */
    TEYK_KIND_EQUALS_GREATER_THAN_LOOKAHEAD = 32, /* =>@L */
    TEYK_KIND_EQUALS_GREATER_THAN_LOOKBEHIND = 33, /* =>@R */
    TEYK_KIND_HASH = 34, /* # */
    TEYK_KIND_GREATER_THAN = 35, /* > */
    TEYK_KIND_LEFT_BRACE = 36, /* { */
    TEYK_KIND_LEFT_BRACKET = 37, /* [ */
    TEYK_KIND_LEFT_PAREN = 38, /* ( */
    TEYK_KIND_LESS_THAN = 39, /* < */
    TEYK_KIND_LOOKAHEAD = 40, /* @L */
    TEYK_KIND_LOOKBEHIND = 41, /* @R */
    TEYK_KIND_MINUS_GREATER_THAN = 42, /* -> */
    TEYK_KIND_PLUS = 43, /* + */
    TEYK_KIND_QUESTION = 44, /* ? */
    TEYK_KIND_RIGHT_BRACE = 45, /* } */
    TEYK_KIND_RIGHT_BRACKET = 46, /* ] */
    TEYK_KIND_RIGHT_PAREN = 47, /* ) */
    TEYK_KIND_SEMI = 48, /* ; */
    TEYK_KIND_STAR = 49, /* * */
    TEYK_KIND_TILDE_TILDE = 50, /* ~~ */
    TEYK_KIND_UNDERSCORE = 51, /* _ */
    TEYK_KIND_BANG = 52, /* ! */
    TEYK_KIND_SHEBANG_ATTRIBUTE = 53 /* payload: all of it */
};

/* How many kinds there are. */
#define TEYK_KINDS 54

/* The longest text, in bytes. */
#define TEYK_TEXT_LIMIT 2147483647

/* How many numbers a record has: kind, start, end, payload start, payload end. This stays five. */
#define TEYK_RECORD 5

/* How many numbers a record of teyk_read has: those five, depth of the gap before it, depth of its code, and two that are not told yet. */
#define TEYK_READ_RECORD 9

/* The readings of teyk_read: LALRPOP's, which is teyk_run's too, and the one that keeps the letter after an attribute. */
#define TEYK_OLD_READING 0
#define TEYK_KEPT_READING 1

/* A number that is not told. */
#define TEYK_NOT_TOLD UINT64_MAX

/* How many numbers `state` has: cursor, count, done, place. */
#define TEYK_STATE 4

/* The third of them once the end was answered. While the tokenizer runs it is 0, and after an error the error's code. */
#define TEYK_ENDED 32

/* How many numbers each function tells in `answer`. */
#define TEYK_RUN_ANSWER 4
#define TEYK_RESUME_ANSWER 4
#define TEYK_READ_ANSWER 6
#define TEYK_EXPAND_ANSWER 4
#define TEYK_PLACE_ANSWER 2
#define TEYK_PLACE_AT_ANSWER 1
#define TEYK_LTK_ANSWER 3
#define TEYK_SHEET_ANSWER 2
#define TEYK_NAME_ANSWER 1

/* How many numbers a sheet has, and the most texts that it takes. */
#define TEYK_SHEET 96
#define TEYK_SHEET_TEXTS 1024

/* Which number of a sheet is what: the tokens of a kind stand at the kind's number. */
enum teyk_sheet {
    TEYK_SHEET_IN_TOKENS = 54, /* characters in tokens */
    TEYK_SHEET_IN_WHITESPACE = 55, /* characters in whitespace */
    TEYK_SHEET_IN_COMMENTS = 56, /* characters in comments */
    TEYK_SHEET_DROPPED = 57, /* characters dropped after attributes */
    TEYK_SHEET_ADVANCES = 58, /* advances */
    TEYK_SHEET_FAILED = 59, /* failed attribute attempts */
    TEYK_SHEET_TAKEN = 60, /* texts taken, those that ended in an error counted */
    TEYK_SHEET_DEEPEST = 61, /* the largest depth of comments, in gaps and in code */
    TEYK_SHEET_TALLY = 64 /* and the code more: texts that ended in that error */
};

/* How many bytes the LTK file of n records has. */
#define TEYK_LTK_SIZE(n) (9 + 9 * (n))

/* No name of a kind or of a code has more bytes. */
#define TEYK_NAME_MOST 29

/* Reads a text to its end or to the first refusal.
 *
 * Each token becomes a record of five numbers in `records`: kind, start, end, payload start, payload end. Places are bytes plus `shift`.
 * The room is records_len / 5 records; numbers beyond the told number of records are not written. Every token has a byte of its own, so
 * a records_len of 5 x text_len always suffices.
 * `limit` bounds the work: the total of advances (characters passed, failed attribute attempts included). Beyond it there are only the
 * checks and the call that is given up, so the time is at most a constant times (limit + text_len).
 *
 * answer: code, place, number of records, advances. The result is the code:
 *    0         the end of the text; the place is 0
 *    2 to 10   the text is refused there; the records before it stand (3, 4 and 7 never come)
 *   22, 23     the same: half a symbol, or a character that starts nothing
 *   11         the place is the first byte of the first ill-formed sequence, plus shift; no record, 0 advances
 *   12, 13     place 0; no record, 0 advances
 *   14         a further token had no room; the place is its start. With an `answer` of fewer than four numbers nothing is written
 *   15         the next call would go above the limit; the place is where it would begin. If 14 applies too, 15 is given
 * 12 is tested first, then 13, then 11, then the text is read. With 14 and 15 the advances are those up to the last record. */
uint64_t teyk_run(const uint8_t *text, size_t text_len, uint64_t shift, uint64_t limit, uint64_t *records, size_t records_len,
                  uint64_t *answer, size_t answer_len);

/* Reads a text as teyk_run does, from the tokenizer that the first four numbers of `state` are, and moves that tokenizer on.
 *
 * state: cursor (a byte index with no shift), count (the advances so far), done (0 while it runs, 32 once the end was answered, else the
 * code of the error that was), place of that error. The place is looked at and written only where done is a code. A run begins with
 * four zeros, and then teyk_resume answers what teyk_run does; for any further call they are lent as they were left. Numbers beyond the
 * four are not written.
 * `limit` bounds the count, so it goes on over all calls. Each call checks the whole text: lend room for many records.
 *
 * answer: code, place, number of records (of this call), advances (the count). The result is the code:
 *    0 to 13   as in teyk_run. After an error or the end, the same is answered again, with no record
 *   14, 15     as in teyk_run. The tokenizer stands before the call that was given up: with more room, or a higher limit, teyk_resume
 *              goes on as if it had never stopped. With a `state` or an `answer` of fewer than four numbers 14 is the result, and nothing
 *              at all is written
 *   20         done is neither 0, 32 nor a code (1 to 29), or the cursor is not on a character's boundary of the text, or beyond its end;
 *              place 0, no record, the advances are the count as given
 * A short slice is tested first, then done, then 12, 13, 11, then the cursor. After 11, 12, 13 and 20 `state` is as it was. No
 * call leaves a done of 11 to 29; it is answered as that error. */
uint64_t teyk_resume(const uint8_t *text, size_t text_len, uint64_t shift, uint64_t limit, uint64_t *state, size_t state_len,
                     uint64_t *records, size_t records_len, uint64_t *answer, size_t answer_len);

/* Reads a text as teyk_run does, or in the kept reading, and tells how deep the block comments before and in each token go.
 *
 * `reading` is TEYK_OLD_READING, which is teyk_run's, or TEYK_KEPT_READING, which keeps the letter. The kept one differs in three places, and in nothing else:
 *   - after an attribute no character is dropped, so that each character is in a token or in a gap
 *   - a regex in code, `r` with hashes and a quote, is closed by a quote and as many hashes as it has, and its 5 is placed at its `r` (the old reading
 *     wants one hash fewer, and places 5 at the first hash)
 *   - in code a quoted literal that is closed, or a quote and one character, may end the text (the old reading refuses both with 6). A lone last quote, and an
 *     escaped literal that is not closed, are 6 in both
 *
 * Each token becomes a record of nine numbers in `records`: the five of teyk_run, the depth of the gap before it, the depth of its code, and two that are
 * TEYK_NOT_TOLD, since no version tells them yet. The room is records_len / 9 records; numbers beyond the told number of records are not written. A
 * records_len of 9 x text_len always suffices. `shift` and `limit` are those of teyk_run.
 *
 * The depth of a block comment is how many are open at once, at most: 1 with no other inside, 2 with two inside that stand side by side. A gap is the
 * whitespace and the comments before a token, or after the last one; the character that the old reading drops after an attribute is in none. Code is the payload of the kinds 13,
 * 30 and 31; every other kind has 0 for it. The depth of a gap, and of code, is the greatest of its block comments', 0 without one. A comment's mark is none in
 * a line comment, nor in a string, a regex or a quote that code passes, nor in a token without code. In a block comment every mark counts, after `//` and in
 * quotes too.
 *
 * answer: code, place, number of records, advances, depth of the last gap, and TEYK_NOT_TOLD, since no version tells that number yet. The last gap's depth
 * is 0 unless the code is 0. The result is the code. In the old reading the first four numbers are those that teyk_run answers with the same text, shift, limit and
 * room; the tests and their order are the same in both. With an `answer` of fewer than six numbers the result is 14, and nothing is written. Then any other
 * `reading` is refused, before the text is looked at: 24, with place, records, advances and depth 0, and no record is written. */
uint64_t teyk_read(const uint8_t *text, size_t text_len, uint64_t reading, uint64_t shift, uint64_t limit, uint64_t *records, size_t records_len,
                   uint64_t *answer, size_t answer_len);

/* Expands the escapes of a string literal's payload: \\ \" \n \r \t \0 \xHL (H octal, L hexadecimal).
 *
 * `idx0` is the place of the text's first byte. Without a backslash the answer is the text itself, and the buffer is not looked at.
 * Otherwise the expansion is written to the buffer from `place` on, and all its other bytes stay. It is never longer than the text.
 * A `place` beyond the buffer is allowed.
 *
 * answer: place of the refusal, 0 or 1 (the text or the buffer holds the expansion), its start, its end. Start and end are indexes of
 * that slice. With code 0 the first number is 0; with a refusal the other three are 0. The result is the code:
 *    0         the expansion stands where the answer says
 *    3, 4, 16  an escape is refused there (idx0 added)
 *   11, 12, 13 as in teyk_run, with idx0 as the shift
 *   14         place plus length goes beyond the buffer; the place is idx0. It is given only if nothing else is refused
 * A refusal writes nothing to the buffer. */
uint64_t teyk_expand(const uint8_t *text, size_t text_len, uint64_t idx0, uint8_t *buffer, size_t buffer_len, uint64_t place,
                     uint64_t *answer, size_t answer_len);

/* The line and the column of a place, which is a byte index with no shift, as the Language Server Protocol counts them.
 *
 * Both count from 0. A line ends at LF, CR LF or a lone CR. The column is the UTF-16 units since the line's start: two for a character
 * above U+FFFF, one for any other. A place between CR and LF belongs to the line that they end, and its column counts the CR. A place
 * inside a character is answered as its first byte, one beyond the text as its end.
 *
 * answer: line, column; with 11 and 12 the refusal's place, and 0. The result is the code:
 *    0   line and column are told
 *   12   more than 2,147,483,647 bytes; place 0
 *   11   the place is the first byte of the first ill-formed sequence
 *   14   fewer than two numbers in `answer`; nothing is written
 * 14 is tested first, then 12, then 11. */
uint64_t teyk_place(const uint8_t *text, size_t text_len, uint64_t place, uint64_t *answer, size_t answer_len);

/* The way back: the place, a byte index with no shift, of a line and a column as teyk_place counts them.
 *
 * A column beyond the line is the line's end, before its CR or LF. One inside a pair of units is the first byte of their character. A
 * line beyond the last is the text's end. So the line and the column of any character's start, and of the text's end, give that place
 * again; only a place between CR and LF becomes that of the CR.
 *
 * answer: the place; with 11 and 12 the refusal's. The result is the code:
 *    0   the place is told
 *   12   more than 2,147,483,647 bytes; place 0
 *   11   the place is the first byte of the first ill-formed sequence
 *   14   an empty `answer`; nothing is written
 * 14 is tested first, then 12, then 11. */
uint64_t teyk_place_at(const uint8_t *text, size_t text_len, uint64_t line, uint64_t column, uint64_t *answer, size_t answer_len);

/* Reads an LTK file (version 1) into records, each as teyk_run has them, with payload start and end equal to start.
 *
 * answer: code, place, number of records. The result is the code:
 *    0   all records are read; the place is 0
 *   17   the mark `LTK` is wrong or cut; place 0
 *   19   fewer than 9 bytes; place 9
 *   18   the version is not 1; place 3
 *   19   the length is not 9 + 9 x count; place 9
 *   20   kind above 53, end at or before start, start before the previous end, or end above 2,147,483,647; the place is the record's start
 *   14   more records than records_len / 5; place 0
 * They are tested in this order. A refusal tells 0 records and writes none; numbers beyond the records read are not written. */
uint64_t teyk_ltk_read(const uint8_t *file, size_t file_len, uint64_t *records, size_t records_len, uint64_t *answer, size_t answer_len);

/* Writes the records_len / 5 records as an LTK file (version 1), 9 + 9 x count bytes; their payloads are not stored. What is left over
 * after the last whole group of five is no record. The records must have been made with shift 0.
 *
 * answer: code, place, number of bytes. The result is the code:
 *    0   the file is written from the buffer's start; the place is 0
 *   12   2^32 records or more; place 0
 *   20   a record fails a test of teyk_ltk_read; the place is 9 + 9 x its index
 *   14   the buffer is too short; place 0
 * They are tested in this order. A refusal tells 0 bytes and writes none; bytes beyond the file are not written. */
uint64_t teyk_ltk_write(const uint64_t *records, size_t records_len, uint8_t *buffer, size_t buffer_len, uint64_t *answer,
                        size_t answer_len);

/* Takes a text onto a sheet of totals, which takes texts one after another: what many grammars hold.
 *
 * A sheet is the first 96 numbers of `sheet`, at first all 0; numbers beyond them are not written. The text is read with shift 0 and a limit
 * of 2^50, and no list is needed for its tokens. A text that is read to its end adds its own totals to
 *    0 to 53   the tokens of each kind, by the kind's number
 *   54 to 57   the characters in tokens, in whitespace, in comments, and those dropped after attributes (one each, if there is one); together
 *              they are all characters of the text
 *   58         its advances: these characters, and what failed attempts cost
 *   59         the failed attribute attempts
 *   60         1: a text taken
 * and number 61 becomes the greatest depth of its gaps and of its tokens' code, as teyk_read tells them, where that is more: it is the largest of all
 * texts that were read to their end, and no sum. A text that ends in an error adds 1 to number 64 + code, 1 to number 60, and changes nothing else. To 62, 63
 * and the other numbers nothing is added. The order of the texts does not matter, as long as all of them are taken.
 *
 * answer: code, place. The result is the code:
 *    0         the text was taken, and read to its end; the place is 0
 *    2 to 10   it was taken, and ended there in this error, which was tallied (3, 4 and 7 never come)
 *   22, 23     the same: half a symbol, or a character that starts nothing
 *   15         the same; the place is where the next call would have begun. It takes a text with more than 2^50 advances
 *   14         fewer than 96 numbers in `sheet`; place 0. With an `answer` of fewer than two numbers nothing is written
 *   12         more than 2,147,483,647 bytes; place 0
 *   11         the place is the first byte of the first ill-formed sequence
 *   21         number 60 is 1,024 or more: the sheet is full; place 0
 *   20         one of the 96 numbers is above 2^50 for each text taken (2^50 x number 60), which no sheet begun with zeros ever has; place 0
 * A short `answer` is tested first, then a short `sheet`, then 12, 11, 21, 20. These refuse the text: it is not counted, and `sheet` stays as
 * it was. */
uint64_t teyk_sheet_take(const uint8_t *text, size_t text_len, uint64_t *sheet, size_t sheet_len, uint64_t *answer, size_t answer_len);

/* Writes the name of a kind (0 to 53), and of a code (1 to 29), as `teyk list` prints it: ASCII, and no zero byte after it.
 *
 * answer: the name's length. The result is the code:
 *    0   the name stands at the buffer's start; bytes beyond it are not written
 *   20   no kind, or no code, has the number
 *   14   the buffer is too short; one of TEYK_NAME_MOST bytes never is. With an empty `answer` nothing is written
 * An empty `answer` is tested first, then the number, then the buffer. A refusal tells 0 and writes nothing to the buffer. */
uint64_t teyk_name_of_kind(uint64_t kind, uint8_t *buffer, size_t buffer_len, uint64_t *answer, size_t answer_len);
uint64_t teyk_name_of_code(uint64_t code, uint8_t *buffer, size_t buffer_len, uint64_t *answer, size_t answer_len);

#ifdef __cplusplus
}
#endif

#endif
