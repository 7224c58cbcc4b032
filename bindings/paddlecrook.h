/* Paddlecrook for C: common subexpressions of a list of formulas, by proved functions.
 *
 * A slice passes as a pointer and a count of elements. No pointer is null, also where the count is 0; what is lent to one call doesn't overlap, but
 * for slices that are only read; words are aligned as uint64_t. Nothing is kept between calls, and nothing is allocated.
 *
 * Each function returns 0, or the number of a refusal (README.md has them all). Refused, a call leaves every output as it was, but for what its
 * own comment says; accepted, it leaves output past its answer as it was.
 *
 * Stack, which no proof covers: each function is to have the bytes that its CSE_STACK_ constant below says. Most systems
 * give a main thread 8 MB, and many give other threads less. README.md has what was measured.
 *
 * Link with libpaddlecrook.a, which bindings/build makes.
 */
#ifndef PADDLECROOK_H
#define PADDLECROOK_H

#include <stdbool.h>
#include <stddef.h>
#include <stdint.h>

#ifdef __cplusplus
extern "C" {
#endif

/* A list has at most so many nodes, roots, and occurrences over all roots. */
#define CSE_NODES 1024
#define CSE_ROOTS 64
#define CSE_OCCURRENCES 1024

/* A node's row has so many words: kind, 1 for a Select with a default, count of fields, the fields, zeros. The fields are the bytes of a symbol's name,
 * 1 or 0 for minus or none and the magnitude of a constant, or the operands' node numbers. */
#define CSE_ROW_WORDS 35
#define CSE_ROWS_WORDS (CSE_NODES * CSE_ROW_WORDS)

/* A sheet has at most so many bytes. */
#define CSE_SHEET_BYTES 65535

/* The work area of extract. */
#define CSE_WORK_WORDS 65536
#define CSE_WORK_BYTES 131072

/* No flat answer has more rows; a scoped one may. */
#define CSE_ANSWER_ROWS 67328

/* The stack that each function is to have, in bytes: at least a quarter more than was measured at the worst inputs. */
#define CSE_STACK_LOAD (384 * 1024)
#define CSE_STACK_EXTRACT (1088 * 1024)
#define CSE_STACK_EXTRACT_SCOPED (4096 * 1024)
#define CSE_STACK_PRINT (1024 * 1024)
#define CSE_STACK_TEXT (1024 * 1024)
#define CSE_STACK_REPLACE (320 * 1024)
#define CSE_STACK_REPLACE_DIVISOR (256 * 1024)
#define CSE_STACK_REPLACE_OUTSIDE_ARMS (384 * 1024)

/* Words stand at most so deep below one another in any answer. A tree of n nodes in one another stands n deep; a let, a
 * value or a result is one more above its tree; and a match and its arm are two above what the arm has. */
#define CSE_DEEPEST 1041

/* Kinds of node rows and of words. A word is kind + 64 * below. Below is, for a symbol, 3 * number + class (class 0: the number of the first row with its
 * name; 1: __xN; 2: __mN); for a constant 0, 1, 2, 3, 4 .. for 0, -1, 1, -2, 2 ..; otherwise how many parts follow. An answer is words: its statements, then a
 * result (below is 0) and its tree, for each root. A statement is a let (below is its symbol's) and its tree; or, in the scoped form, a match by its kind of
 * switch, its key's tree, a name (below is its symbol's) for each name that it binds, and its arms, the default last. An arm is its statements, and then a
 * value (below is 0) and its tree for each name. */
enum {
    CSE_SYM, CSE_CONST, CSE_NEG, CSE_ADD, CSE_SUB, CSE_MUL, CSE_DIV, CSE_POW, CSE_SIN, CSE_COS, CSE_TAN, CSE_ASIN, CSE_ACOS, CSE_ATAN, CSE_ATAN2, CSE_SINH,
    CSE_COSH, CSE_TANH, CSE_EXP, CSE_LN, CSE_LOG2, CSE_LOG10, CSE_SQRT, CSE_ABS, CSE_HEAVISIDE, CSE_CLAMP, CSE_BRANCH, CSE_SELECT,
    CSE_SELECT_OR, /* in words only: a Select with a default */
    CSE_LET,
    CSE_MATCH_BRANCH, CSE_MATCH_SELECT, CSE_MATCH_SELECT_OR, CSE_NAME, CSE_ARM, CSE_VALUE,
    CSE_RESULT
};

/* Reads a sheet into node rows and roots. rows: CSE_ROWS_WORDS words or more; roots: CSE_ROOTS or more; answer: 2 or more.
 * 0: answer[0] is how many rows were written (of CSE_ROW_WORDS words each), answer[1] how many roots.
 * 1 to 7: answer[0] is the record, counted from 0. 255: answer has fewer than two words. */
uint64_t cse_load(const uint8_t *sheet, size_t sheet_len, uint64_t *rows, size_t rows_len, uint64_t *roots, size_t roots_len, uint64_t *answer,
                  size_t answer_len);

/* Extracts the common subexpressions of a list, flat. rows and roots: exactly the list's, a multiple of CSE_ROW_WORDS words and a node number for each root;
 * work: CSE_WORK_WORDS or more; text: CSE_WORK_BYTES or more; table: as many words as the answer may have rows, CSE_ANSWER_ROWS always do; answer: 2 or more.
 * 0: answer[0] is how many words of the table were written, answer[1] the extraction count.
 * 8, 9, 10, 12. 255: answer has fewer than two words. What is left in work and text is free, refused or not. */
uint64_t cse_extract(const uint64_t *rows, size_t rows_len, const uint64_t *roots, size_t roots_len, uint64_t *work, size_t work_len, uint8_t *text,
                     size_t text_len, uint64_t *table, size_t table_len, uint64_t *answer, size_t answer_len);

/* The same in the scoped form: what only an arm of a switch uses is bound in that arm, and switches on one key are one match. Lent alike; a table may have to be
 * longer than CSE_ANSWER_ROWS. 8, 9, 10, 11, 12, 23. */
uint64_t cse_extract_scoped(const uint64_t *rows, size_t rows_len, const uint64_t *roots, size_t roots_len, uint64_t *work, size_t work_len, uint8_t *text,
                            size_t text_len, uint64_t *table, size_t table_len, uint64_t *answer, size_t answer_len);

/* Writes the text of an answer: a line for each binding and each result. rows: the list's; answer: exactly the answer's words; out: as many bytes as the
 * text may have; said: 1 or more.
 * 0: said[0] is how many bytes were written. 13, also for words that stand deeper than CSE_DEEPEST; 14.
 * 255: said is empty. */
uint64_t cse_print(const uint64_t *rows, size_t rows_len, const uint64_t *answer, size_t answer_len, uint8_t *out, size_t out_len, uint64_t *said,
                   size_t said_len);

/* Writes the text of the tree that begins at the word `at`, from the byte `to` on; `dry` only measures. Bytes past the end of out are dropped.
 * 0: answer[0] is the place after the tree's words, answer[1] the place after its text, one past the end where it was cut off.
 * 253: no tree of an answer begins there, or words stand deeper than CSE_DEEPEST, those before and after the tree too.
 * 255: answer has fewer than two words. */
uint64_t cse_text(const uint64_t *rows, size_t rows_len, const uint64_t *tokens, size_t tokens_len, size_t at, uint8_t *out, size_t out_len, bool dry,
                  size_t to, uint64_t *answer, size_t answer_len);

/* The rewritings that extraction is made of, on words of trees. name: the word of a symbol; out: as many words as tokens has, or more; answer: 1 or more.
 * 0: answer[0] is how many words were written. 253: the words aren't trees, or the name isn't a symbol's. 254: too few places. 255: answer is empty. */

/* Each division by a tree becomes a product with a symbol. 253 too for tokens or a divisor that stand deeper than
 * CSE_DEEPEST. */
uint64_t cse_replace_divisor(const uint64_t *tokens, size_t tokens_len, const uint64_t *divisor, size_t divisor_len, uint64_t name, uint64_t *out,
                             size_t out_len, uint64_t *answer, size_t answer_len);

/* Each equal tree outside the arms of switches becomes a symbol. 253 too for tokens or a target that stand deeper than
 * CSE_DEEPEST. */
uint64_t cse_replace_outside_arms(const uint64_t *tokens, size_t tokens_len, const uint64_t *target, size_t target_len, uint64_t name, uint64_t *out,
                                  size_t out_len, uint64_t *answer, size_t answer_len);

/* Each equal tree becomes a symbol, and so do the target's factors in a product. places: three words for each of the
 * tokens, or for every two of the target's, whichever is more; what is left there is free, refused or not.
 * 253 too for tokens or a target that stand deeper than CSE_DEEPEST, and for a target that would be replaced for ever: a
 * product with coefficient 1 that has no factor, or the name alone. 10: a rebuilt coefficient is no constant; nothing is
 * written to out. */
uint64_t cse_replace(const uint64_t *tokens, size_t tokens_len, const uint64_t *target, size_t target_len, uint64_t name, uint64_t *places,
                     size_t places_len, uint64_t *out, size_t out_len, uint64_t *answer, size_t answer_len);

#ifdef __cplusplus
}
#endif

#endif
