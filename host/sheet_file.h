/*
 * What the example programs have in common: they read one sheet, and say in words
 * what goes wrong.
 *
 * Everything that goes wrong is told on standard error. The exit status is 0 if
 * the work was done, 1 for a refused sheet, and 2 if something cannot be read or
 * written.
 */
#ifndef SHEET_FILE_H
#define SHEET_FILE_H

#include <errno.h>
#include <stdio.h>
#include <string.h>

#include "sazamkhri.h"

enum { DONE = 0, REFUSED = 1, FAULT = 2 };

/* A refusal in words, with what to do where that is not plain from it. */
static const char *meaning(uint64_t number) {
    switch (number) {
    case SAZAMKHRI_K_OUT_OF_RANGE: return "k is 0 or above 64";
    case SAZAMKHRI_TABLES_TOO_LARGE: return "there are too many contexts or codes";
    case SAZAMKHRI_OFFSETS_BROKEN: return "the contexts do not follow each other";
    case SAZAMKHRI_CODE_TOO_LARGE: return "a code is above 4,095";
    case SAZAMKHRI_CODE_NOT_RISING: return "a code is not above the one before it in its context";
    case SAZAMKHRI_NO_ROOM_FOR_LIST: return "there is no room for the list";
    case SAZAMKHRI_NO_ROOM_FOR_WORK: return "there is no room for the work";
    case SAZAMKHRI_TOO_MANY_MET:
        return "more than 2,048 pairs are met: number rare types first, ask for fewer pairs, "
               "or list fewer contexts (64 always fit)";
    case SAZAMKHRI_BADLY_FORMED: return "the sheet is badly formed, or stops early";
    case SAZAMKHRI_NUMBER_TOO_LARGE: return "a number is above 65,535";
    case SAZAMKHRI_SHEET_TOO_LARGE: return "the sheet has over 24,576 bytes, over 256 contexts or over 4,096 codes";
    case SAZAMKHRI_TEXT_TOO_SMALL: return "the listing does not fit the buffer";
    case SAZAMKHRI_NO_SUCH_CONTEXT: return "there is no context with this number";
    case SAZAMKHRI_LIST_BROKEN: return "the list has fewer entries than are counted, or an entry that no list has";
    default: return "for a reason that this program does not know";
    }
}

/* Tells of a refused sheet. The status tells of it even where its words cannot be written. */
static int refused(uint64_t number) {
    fprintf(stderr, "refused (%u): %s\n", (unsigned)number, meaning(number));
    return REFUSED;
}

/* Says which file could not be used, and why. */
static int fault(const char *program, const char *name) {
    fprintf(stderr, "%s: %s: %s\n", program, name, strerror(errno));
    return FAULT;
}

/*
 * The whole program: reads the sheet that is named, or the one on standard input,
 * and gives what `use` makes of it, which is the exit status.
 */
static int with_sheet(const char *program, int argc, char **argv, int (*use)(const uint8_t *sheet, size_t length)) {
    /* One byte more than the limit, so that a longer sheet is seen to be longer. */
    static uint8_t sheet[SAZAMKHRI_SHEET_LIMIT + 1];
    if (argc > 2) {
        fprintf(stderr, "usage: %s [SHEET]\n", program);
        return FAULT;
    }

    const char *name = argc == 2 ? argv[1] : "standard input";
    FILE *from = argc == 2 ? fopen(name, "rb") : stdin;
    if (from == NULL) {
        return fault(program, name);
    }
    size_t length = fread(sheet, 1, sizeof sheet, from);
    if (ferror(from)) {
        return fault(program, name);
    }
    if (from != stdin) {
        fclose(from);
    }
    return use(sheet, length);
}

#endif
