/* Extracts the common subexpressions of the paper's sheet, flat, and of one with switches, in the scoped form. */
#include "paddlecrook.h"
#include <stdio.h>
#include <string.h>

static const char sheet[] = "Sym,a\r\nSym,b\r\nAdd,0,1\r\nSym,c\r\nMul,2,3\r\nSin,2\r\nRoot,4\r\nRoot,5\r\n";
static const char switches[] =
    "Sym,i\r\nSym,a\r\nSym,b\r\nAdd,1,2\r\nSin,3\r\nCos,3\r\nMul,4,5\r\nSelect,0,6,1\r\nSelect,0,2,1\r\nRoot,7\r\nRoot,8\r\n";

static uint64_t rows[CSE_ROWS_WORDS], roots[CSE_ROOTS], work[CSE_WORK_WORDS], table[CSE_ANSWER_ROWS];
static uint8_t text[CSE_WORK_BYTES], out[4096];

static int refused(const char *call, uint64_t number, uint64_t record) {
    fprintf(stderr, "%s: refused %llu %llu\n", call, (unsigned long long)number, (unsigned long long)record);
    return 1;
}

/* Prints the answer to a sheet in one form, and the extraction count of a flat one. The stack of a main thread, 8 MB, is enough. */
static int answer(const char *list, bool scoped) {
    uint64_t loaded[2] = {0, 0}, extracted[2] = {0, 0}, said[1];
    uint64_t number = cse_load((const uint8_t *)list, strlen(list), rows, CSE_ROWS_WORDS, roots, CSE_ROOTS, loaded, 2);
    if (number != 0) {
        return refused("load", number, loaded[0]);
    }
    size_t words = loaded[0] * CSE_ROW_WORDS;
    number = (scoped ? cse_extract_scoped : cse_extract)(rows, words, roots, loaded[1], work, CSE_WORK_WORDS, text, CSE_WORK_BYTES, table, CSE_ANSWER_ROWS,
                                                         extracted, 2);
    if (number != 0) {
        return refused("extract", number, 0);
    }
    number = cse_print(rows, words, table, extracted[0], out, sizeof out, said, 1);
    if (number != 0) {
        return refused("print", number, 0);
    }
    fwrite(out, 1, said[0], stdout);
    if (!scoped) {
        printf("%llu extracted\n", (unsigned long long)extracted[1]);
    }
    return 0;
}

int main(void) {
    return answer(sheet, false) || answer(switches, true);
}
