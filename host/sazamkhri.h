/*
 * Sazamkhri: the most alike pairs of contexts on a site sheet.
 *
 * Two calls. sazamkhri_listing takes the bytes of a sheet and a buffer, and
 * writes the listing into the buffer. sazamkhri_cell takes the pairs of a listing
 * and two contexts, and gives what the heat map of these pairs has in their cell:
 * how alike they are, or nothing. What both answer is proved, for every sheet,
 * every list and every buffer (crates/host, crates/listing and crates/heat); what
 * is measured or tested is called so. What the caller has to see to is under 'What
 * the caller owes'.
 *
 * Link with libsazamkhri.a: `make install` puts it and this header where you
 * say, with a file for pkg-config. Of the C library it needs memset, and nothing
 * else: no heap, no files.
 *
 * The library is for x86-64 Linux: ELF, the System V calling convention, and no
 * instruction that an x86-64 processor may lack. It is position independent, so
 * it links into programs of every kind and into shared objects. It has no data
 * of its own, and asks for no executable stack. It carries no tables for
 * debuggers and no marks for control-flow enforcement (CET). This header is for
 * C99 and later and for C++11 and later.
 */
#ifndef SAZAMKHRI_H
#define SAZAMKHRI_H

#include <stddef.h>
#include <stdint.h>

#ifdef __cplusplus
extern "C" {
#endif

/* The version of header and library. */
#define SAZAMKHRI_VERSION_MAJOR 2
#define SAZAMKHRI_VERSION_MINOR 1
#define SAZAMKHRI_VERSION_PATCH 0
#define SAZAMKHRI_VERSION "2.1.0"

/* The most bytes of a sheet. A longer one is refused with 11, before all else. */
#define SAZAMKHRI_SHEET_LIMIT 24576

/* A listing never has more bytes than this (proved), so a buffer of this size
 * is never refused with 12. */
#define SAZAMKHRI_LISTING_LIMIT 2048

/* The most pairs of a listing, since k is at most 64. */
#define SAZAMKHRI_PAIRS_LIMIT 64

/* The words of 16 bits in an entry of a list: one for each number of a `pair=`
 * line. */
#define SAZAMKHRI_ENTRY_WORDS 5

/* The two kinds of cell: blank, and with a value. */
#define SAZAMKHRI_BLANK UINT64_C(0)
#define SAZAMKHRI_VALUE UINT64_C(1)

/* What the number of a refusal is added to. Every value below it is a length from
 * sazamkhri_listing, and a cell's kind from sazamkhri_cell. */
#define SAZAMKHRI_REFUSED UINT64_C(1000000)

/* The bytes of stack that each call may use: see 'What the caller owes'. */
#define SAZAMKHRI_STACK 49152
#define SAZAMKHRI_CELL_STACK 1024

/* The refusals. SAZAMKHRI_REFUSED is added to these numbers. sazamkhri_cell gives
 * 13 and 17 and no others, sazamkhri_listing never gives these two. */
enum sazamkhri_refusal {
    /* k is 0 or above 64 */
    SAZAMKHRI_K_OUT_OF_RANGE = 1,
    /* too many contexts or codes for the tables (cannot arise from a sheet) */
    SAZAMKHRI_TABLES_TOO_LARGE = 2,
    /* the contexts do not follow each other (cannot arise from a sheet) */
    SAZAMKHRI_OFFSETS_BROKEN = 3,
    /* a code above 4,095 */
    SAZAMKHRI_CODE_TOO_LARGE = 4,
    /* a code that is not above the one before it in its context */
    SAZAMKHRI_CODE_NOT_RISING = 5,
    /* no room for the list (cannot arise in these calls) */
    SAZAMKHRI_NO_ROOM_FOR_LIST = 6,
    /* no room for the work (cannot arise in these calls) */
    SAZAMKHRI_NO_ROOM_FOR_WORK = 7,
    /* more than 2,048 pairs are met. 64 contexts always fit (2,016 pairs). With
     * more, number rare types first, ask for fewer pairs, or list fewer contexts. */
    SAZAMKHRI_TOO_MANY_MET = 8,
    /* the sheet is badly formed, or stops early */
    SAZAMKHRI_BADLY_FORMED = 9,
    /* a number above 65,535 */
    SAZAMKHRI_NUMBER_TOO_LARGE = 10,
    /* the sheet has over 24,576 bytes, over 256 contexts or over 4,096 codes */
    SAZAMKHRI_SHEET_TOO_LARGE = 11,
    /* the listing does not fit the buffer */
    SAZAMKHRI_TEXT_TOO_SMALL = 12,
    /* a context number that is not below the number of contexts */
    SAZAMKHRI_NO_SUCH_CONTEXT = 13,
    /* more entries than the list holds, or an entry that no list has */
    SAZAMKHRI_LIST_BROKEN = 17
};

/*
 * Lists a sheet.
 *
 *   sheet, sheet_len   the bytes of the sheet: lines `k=`, `contexts=` and then
 *                      one `c=` line a context, each ended by byte 10
 *   text, text_len     the buffer for the listing
 *
 * The value is
 *
 *   the length of the listing, if the sheet was listed. The listing stands at
 *   the front of the buffer and is not ended by a zero byte of its own; every
 *   byte behind it, to the buffer's end, is zero;
 *
 *   1,000,000 plus the number of the refusal (enum sazamkhri_refusal), if it was
 *   not. Then every byte of the buffer is zero. The place of a refusal is not
 *   told here; the listing program prints it.
 *
 * The listing has the lines `k=`, `found=`, `events=` and `met=`, and then one
 * `pair=` line for each pair found: lower context, higher context, codes shared,
 * codes in either, first shared code. Contexts count from 0. The first shared code
 * is the smallest code that both contexts have. Every line ends in byte 10.
 *
 * 12 is tested last: a sheet that is refused with another number gets that one,
 * whatever the buffer. A listing as long as the buffer is accepted.
 *
 * What the caller owes
 *
 *   Both lengths may be 0, and of any size. Neither pointer is null, not even
 *   with a length of 0: point at any byte.
 *   sheet points at sheet_len bytes that can be read, text at text_len bytes
 *   that can be written. The two do not overlap.
 *   Nobody else writes either of them, or reads the buffer, until the call
 *   returns.
 *   48 KB of stack are left (SAZAMKHRI_STACK): the tables of the call have 38 KB.
 *   (Measured: 30 KB, since the compiler leaves out what is never read, and 3 KB
 *   more where a program's first call looks memset up. host/check.c measures it.)
 *   What a thread needs for itself comes on top.
 *
 * What the caller gets
 *
 *   The call always returns. It keeps nothing: no pointer, no state, no memory.
 *   The sheet is not changed. The same sheet and the same text_len always give
 *   the same value and the same bytes.
 *   Any number of threads may call it at the same time, each with a buffer of
 *   its own; they may share one sheet.
 */
uint64_t sazamkhri_listing(const uint8_t *sheet, size_t sheet_len, uint8_t *text, size_t text_len);

/*
 * Gives one cell of a heat map.
 *
 * A heat map is a square with a cell for each two contexts. The cell of a listed
 * pair has a value, how alike the two are. All other cells are blank.
 *
 *   contexts         how many contexts there are
 *   list, list_len   the list of pairs and the number of its words, five an entry
 *                    (SAZAMKHRI_ENTRY_WORDS): lower context, higher context,
 *                    codes shared, codes in either, first shared code
 *   entries          how many entries count, from the front of the list on
 *   first, second    the two contexts, in either order. Contexts count from 0
 *   value            where the value goes
 *
 * The five numbers of a `pair=` line are an entry, and SAZAMKHRI_PAIRS_LIMIT entries
 * hold every listing. With all entries of a listing, the number behind its `found=`
 * and the number behind `contexts=` in its sheet, no two of these contexts are
 * refused.
 *
 * The call gives
 *
 *   0 (SAZAMKHRI_BLANK), if the cell is blank: first and second are the same, or
 *   none of the entries names the two. Then *value is 0.0;
 *
 *   1 (SAZAMKHRI_VALUE), if an entry names the two. Then *value is its codes
 *   shared divided by its codes in either: above 0.0, and at most 1.0. Where
 *   several entries name them, the first of these counts;
 *
 *   1,000,000 plus the number of the refusal (enum sazamkhri_refusal), if it
 *   refuses. Then *value is 0.0. The place of a refusal is not told here.
 *
 * The value is the double that is nearest to the quotient (round to nearest, ties
 * to even): one division, rounded once. Nothing is lost by it (proved): a smaller
 * quotient is a smaller double, so two doubles are equal exactly if the quotients
 * are. 99 of 100 and 100 of 101, for instance, are two different doubles.
 *
 * It refuses for these causes, and looks for them in this order:
 *
 *   13  first is not below contexts, or second is not. So it always refuses
 *       where there are no contexts;
 *   17  the list holds fewer whole entries: entries is above
 *       list_len / SAZAMKHRI_ENTRY_WORDS;
 *   17  in one of the entries the lower context is not below the higher, the
 *       higher not below contexts, no code is shared, or more codes are shared
 *       than are in either.
 *
 * Each call looks at all entries that count. It refuses if one of them is wrong,
 * whichever cell it is asked for, also that of a context against itself. What
 * stands behind them makes no difference. Nor does the fifth word of an entry, its
 * first shared code: the call does not look at it, and any number may stand there.
 * There may be more than 256 contexts and more than 64 entries.
 *
 * What the caller owes
 *
 *   list_len and entries may be 0, and of any size. Neither pointer is null, not
 *   even with a list_len of 0: point at any word.
 *   list points at list_len words that can be read, value at a double that can be
 *   written, whatever stands there before. Both are aligned as their types are,
 *   and they do not overlap.
 *   Nobody else writes the list or the value, or reads the value, until the call
 *   returns.
 *   contexts, first and second are below 65,536: of a greater number C hands over
 *   the last 16 bits, so that the call cannot see it.
 *   Doubles are rounded to nearest, and an inexact result does not stop the
 *   program: so every C program begins. One that rounds otherwise (fesetround)
 *   gets the quotient rounded so; that is tested, and not proved.
 *   1 KB of stack is left (SAZAMKHRI_CELL_STACK). (Measured: under 128 bytes.)
 *
 * What the caller gets
 *
 *   The call always returns. It keeps nothing: no pointer, no state, no memory.
 *   The list is not changed. The same numbers and the same words always give the
 *   same cell, also with first and second the other way round.
 *   A division may set the flag for inexact results (FE_INEXACT), and no other.
 *   Any number of threads may call it at the same time, each with a value of its
 *   own; they may share one list.
 *   The time of a call grows with the entries that count, whichever cell it is.
 */
uint64_t sazamkhri_cell(uint16_t contexts, const uint16_t *list, size_t list_len, size_t entries, uint16_t first,
                        uint16_t second, double *value);

#ifdef __cplusplus
}
#endif

#endif
