/*
 * Tries the two host calls at their borders: every byte of the buffers and beside
 * them, the order of the refusals, empty sheets, lists and buffers, sheets that
 * take each way through the search, the longest sheets, every bit of a cell's
 * value, several threads at a time, and the stack that the calls need. Exits with
 * 1 if one fails.
 */
#define _DEFAULT_SOURCE
#include <pthread.h>
#include <signal.h>
#include <stdarg.h>
#include <stdio.h>
#include <stdlib.h>
#include <string.h>
#include <sys/mman.h>
#include <sys/resource.h>
#include <sys/wait.h>
#include <unistd.h>
#include <xmmintrin.h>

#include "sazamkhri.h"

enum { PAGE = 4096, ROOM = 4096, WORDS = SAZAMKHRI_ENTRY_WORDS, TWO = 2 * WORDS };

static const char three[] = "k=1\ncontexts=3\nc=2 3 4 5\nc=1 2 3 4 5\nc=1 2 3 4\n";
static const char listing[] = "k=1\nfound=1\nevents=4\nmet=2\npair=0 1 4 5 2\n";

static int failed;

/* Says how a trial went, and remembers its failure. */
static void say(const char *name, uint64_t number, int ok) {
    printf("%-52s %7llu %s\n", name, (unsigned long long)number, ok ? "as it should be" : "WRONG");
    failed |= !ok;
}

/* Without it nothing can be tried. */
static void need(int ok, const char *what) {
    if (!ok) {
        printf("%s: not to be had\n", what);
        exit(1);
    }
}

/* The bits of a value: those of 0.0 and -0.0 differ, though the two are equal. */
static uint64_t bits_of(double value) {
    uint64_t bits;
    memcpy(&bits, &value, sizeof bits);
    return bits;
}

/*
 * Makers of sheets. Each of them writes the listing, too, that is worked out from
 * what the sheet is made of: which pairs share a type, how many of whose types, and
 * from which on.
 */
struct sheet {
    char name[64];
    char bytes[SAZAMKHRI_SHEET_LIMIT + 2];
    char listing[SAZAMKHRI_LISTING_LIMIT + 1];
    size_t length;
    uint64_t value;
};

/* Writes behind the text of a sheet. */
static void add(struct sheet *s, const char *form, ...) {
    va_list values;
    va_start(values, form);
    int n = vsnprintf(s->bytes + s->length, sizeof s->bytes - s->length, form, values);
    va_end(values);
    need(n >= 0 && s->length + (size_t)n < sizeof s->bytes, "room for a sheet");
    s->length += (size_t)n;
}

/* A context with the codes from `first` on, one by one. */
static void add_context(struct sheet *s, unsigned first, unsigned codes) {
    add(s, "c=");
    for (unsigned i = 0; i < codes; i++) {
        add(s, i == 0 ? "%u" : " %u", first + i);
    }
    add(s, "\n");
}

static void add_empty_contexts(struct sheet *s, unsigned contexts) {
    for (unsigned i = 0; i < contexts; i++) {
        add_context(s, 0, 0);
    }
}

/* Writes behind the listing of a sheet. */
static void tell(struct sheet *s, const char *form, ...) {
    size_t length = strlen(s->listing);
    va_list values;
    va_start(values, form);
    int n = vsnprintf(s->listing + length, sizeof s->listing - length, form, values);
    va_end(values);
    need(n >= 0 && length + (size_t)n < sizeof s->listing, "room for a listing");
    s->value = length + (size_t)n;
}

static void begin(struct sheet *s, const char *name, unsigned k, unsigned contexts) {
    s->length = 0;
    s->value = 0;
    s->listing[0] = 0;
    snprintf(s->name, sizeof s->name, "%s", name);
    add(s, "k=%u\ncontexts=%u\n", k, contexts);
}

/* A sheet by its text. */
static void text_of(struct sheet *s, const char *name, const char *bytes) {
    begin(s, name, 1, 1);
    s->length = 0;
    add(s, "%s", bytes);
}

static void listed(struct sheet *s, const char *name, const char *bytes, const char *text) {
    text_of(s, name, bytes);
    tell(s, "%s", text);
}

static void refused(struct sheet *s, const char *name, const char *bytes, enum sazamkhri_refusal number) {
    text_of(s, name, bytes);
    s->value = SAZAMKHRI_REFUSED + number;
}

/*
 * Contexts 0 and 1 have the same `codes` codes, so have 2 and 3, and so on, and no others share any. With at
 * least k such twins the k-th ratio is 1, which only the first place of a context can reach.
 */
static void twins(struct sheet *s, const char *name, unsigned k, unsigned contexts, unsigned codes) {
    enum { FIRST_CODE = 2048 };
    unsigned pairs = contexts / 2;
    unsigned found = pairs < k ? pairs : k;
    begin(s, name, k, contexts);
    for (unsigned i = 0; i < contexts; i++) {
        add_context(s, FIRST_CODE + i / 2 * codes, codes);
    }
    tell(s, "k=%u\nfound=%u\nevents=%u\nmet=%u\n", k, found, pairs < k ? contexts * codes : contexts, pairs);
    for (unsigned i = 0; i < found; i++) {
        tell(s, "pair=%u %u %u %u %u\n", 2 * i, 2 * i + 1, codes, codes, FIRST_CODE + i * codes);
    }
}

/* Every context has the same one code, so each meets each. The trail has room for 2,048 pairs. */
static void crowd(struct sheet *s, const char *name, unsigned contexts) {
    unsigned met = contexts * (contexts - 1) / 2;
    begin(s, name, 64, contexts);
    for (unsigned i = 0; i < contexts; i++) {
        add_context(s, 7, 1);
    }
    if (met > 2048) {
        s->value = SAZAMKHRI_REFUSED + SAZAMKHRI_TOO_MANY_MET;
        return;
    }
    tell(s, "k=64\nfound=64\nevents=%u\nmet=%u\n", contexts, met);
    for (unsigned i = 0, low = 0, high = 1; i < 64; i++) {
        tell(s, "pair=%u %u 1 1 7\n", low, high);
        low += high + 1 == contexts;
        high = high + 1 == contexts ? low + 1 : high + 1;
    }
}

/* The longest sheet that can be listed: 4,096 codes of four digits, in as few contexts as hold them. */
static void longest_listed(struct sheet *s) {
    begin(s, "the longest sheet that can be listed", 64, 256);
    add_context(s, 1000, 3096);
    add_empty_contexts(s, 254);
    add_context(s, 1000, 1000);
    tell(s, "k=64\nfound=1\nevents=4096\nmet=1\npair=0 255 1000 3096 1000\n");
    need(s->length == 21264, "a sheet of 21,264 bytes");
}

/* A well-formed sheet as long as any may be. Its codes are above 4,095. */
static void longest(struct sheet *s) {
    begin(s, "a well-formed sheet of 24,576 bytes", 1, 255);
    add_context(s, 9999, 3966);
    add_empty_contexts(s, 254);
    s->value = SAZAMKHRI_REFUSED + SAZAMKHRI_CODE_TOO_LARGE;
    need(s->length == SAZAMKHRI_SHEET_LIMIT, "a sheet of 24,576 bytes");
}

/* A context of 60 codes is walked where there is no room for a bit a pair; those of 30 codes are marked at once. */
static void long_and_short(struct sheet *s) {
    begin(s, "112 contexts, two of them with over 48 codes", 64, 112);
    add_context(s, 0, 60);
    for (unsigned i = 0; i < 110; i++) {
        add_context(s, 100 + 30 * i, 30);
    }
    add_context(s, 50, 60);
    /* 100 to 109 are in context 1 and in the last one, 50 to 59 in context 0 and in the last one. */
    tell(s, "k=64\nfound=2\nevents=3420\nmet=2\npair=1 111 10 80 100\npair=0 111 10 110 50\n");
}

static struct sheet sheets[24];
static size_t many;

static struct sheet *next(void) {
    need(many < sizeof sheets / sizeof *sheets, "room for one more sheet");
    return &sheets[many++];
}

static void make_sheets(void) {
    twins(next(), "256 contexts with 16 codes, 64 pairs listed", SAZAMKHRI_PAIRS_LIMIT, 256, 16);
    twins(next(), "111 contexts with 36 codes, 55 twins", 55, 111, 36);
    twins(next(), "110 contexts with 37 codes", 55, 110, 37);
    twins(next(), "64 contexts with 64 codes, all events", 64, 64, 64);
    long_and_short(next());
    crowd(next(), "64 contexts that all meet, 64 pairs listed", 64);
    crowd(next(), "65 contexts that all meet", 65);
    crowd(next(), "256 contexts that all meet", 256);
    longest_listed(next());
    longest(next());
    listed(next(), "first shared code 0", "k=1\ncontexts=2\nc=0\nc=0\n",
           "k=1\nfound=1\nevents=2\nmet=1\npair=0 1 1 1 0\n");
    listed(next(), "first shared code 4,095", "k=1\ncontexts=2\nc=4095\nc=4095\n",
           "k=1\nfound=1\nevents=2\nmet=1\npair=0 1 1 1 4095\n");
    listed(next(), "a first shared code that is first in neither", "k=1\ncontexts=2\nc=1 5 9\nc=2 5 9\n",
           "k=1\nfound=1\nevents=4\nmet=1\npair=0 1 2 4 5\n");
    refused(next(), "k is 0", "k=0\ncontexts=0\n", SAZAMKHRI_K_OUT_OF_RANGE);
    refused(next(), "k is 65", "k=65\ncontexts=0\n", SAZAMKHRI_K_OUT_OF_RANGE);
    refused(next(), "a code above 4,095", "k=1\ncontexts=1\nc=4096\n", SAZAMKHRI_CODE_TOO_LARGE);
    refused(next(), "a code twice", "k=1\ncontexts=1\nc=5 5\n", SAZAMKHRI_CODE_NOT_RISING);
    refused(next(), "a line too many", "k=1\ncontexts=0\nc=\n", SAZAMKHRI_BADLY_FORMED);
    refused(next(), "an empty sheet", "", SAZAMKHRI_BADLY_FORMED);
    refused(next(), "a number above 65,535", "k=65536\ncontexts=0\n", SAZAMKHRI_NUMBER_TOO_LARGE);
    refused(next(), "257 contexts", "k=1\ncontexts=257\n", SAZAMKHRI_SHEET_TOO_LARGE);
}

/* Bytes between two pages that nobody may touch. */
struct fenced {
    uint8_t *all;
    size_t size;
    uint8_t *bytes;
};

/* The bytes begin right behind the first page, or end right before the second. */
static struct fenced fence(size_t length, int at_end) {
    size_t inside = (length + PAGE - 1) / PAGE * PAGE;
    struct fenced f = {NULL, inside + 2 * PAGE, NULL};
    f.all = mmap(NULL, f.size, PROT_NONE, MAP_PRIVATE | MAP_ANONYMOUS, -1, 0);
    need(f.all != MAP_FAILED, "memory");
    need(inside == 0 || mprotect(f.all + PAGE, inside, PROT_READ | PROT_WRITE) == 0, "memory to write to");
    f.bytes = f.all + PAGE + (at_end ? inside - length : 0);
    return f;
}

static void unfence(struct fenced f) {
    munmap(f.all, f.size);
}

/* A buffer of room bytes holds text, and then zeros. */
static int holds(const uint8_t *buffer, size_t room, const char *text) {
    size_t n = strlen(text);
    int ok = n <= room && memcmp(buffer, text, n) == 0;
    for (size_t i = n; i < room; i++) {
        ok = ok && buffer[i] == 0;
    }
    return ok;
}

/*
 * The call gives want, and the buffer of room bytes holds text and then zeros. The sheet cannot be written, and no
 * byte beside the sheet or beside the buffer can be read or written: whoever tries is ended by the system.
 */
static int called(const void *sheet, size_t length, size_t room, uint64_t want, const char *text, int at_end) {
    struct fenced from = fence(length, at_end);
    struct fenced to = fence(room, at_end);
    memcpy(from.bytes, sheet, length);
    memset(to.bytes, 0xA5, room);
    need(length == 0 || mprotect(from.all + PAGE, from.size - 2 * PAGE, PROT_READ) == 0, "a sheet to read only");
    uint64_t got = sazamkhri_listing(from.bytes, length, to.bytes, room);
    int ok = got == want && holds(to.bytes, room, text);
    unfence(from);
    unfence(to);
    return ok;
}

static void try(const char *name, const void *sheet, size_t length, size_t room, uint64_t want, const char *text) {
    int ok = called(sheet, length, room, want, text, 0);
    say(name, want, called(sheet, length, room, want, text, 1) && ok);
}

static void borders(void) {
    static char large[SAZAMKHRI_SHEET_LIMIT + 1];
    size_t n = strlen(listing);
    memset(large, 'x', sizeof large);
    try("the paper's sheet", three, strlen(three), ROOM, n, listing);
    try("in a buffer of the listing's length", three, strlen(three), n, n, listing);
    try("in a byte less", three, strlen(three), n - 1, 1000012, "");
    try("in no byte", three, strlen(three), 0, 1000012, "");
    try("an empty sheet, no buffer", "", 0, 0, 1000009, "");
    try("no contexts", "k=1\ncontexts=0\n", 15, ROOM, 27, "k=1\nfound=0\nevents=0\nmet=0\n");
    try("a code twice, no buffer", "k=1\ncontexts=1\nc=5 5\n", 21, 0, 1000005, "");
    try("24,576 bytes that are no sheet", large, SAZAMKHRI_SHEET_LIMIT, ROOM, 1000009, "");
    try("24,577 bytes", large, SAZAMKHRI_SHEET_LIMIT + 1, ROOM, 1000011, "");
    for (size_t i = 0; i < many; i++) {
        const struct sheet *s = &sheets[i];
        try(s->name, s->bytes, s->length, SAZAMKHRI_LISTING_LIMIT, s->value, s->listing);
    }
}

/*
 * Cells of heat maps: a call each, what it has to give, and the bits of the value, which were worked out in whole
 * numbers. A cell without a value has those of 0.0.
 */
struct cell {
    const char *name;
    uint16_t contexts, first, second;
    size_t entries, list_len;
    uint16_t list[3 * WORDS];
    uint64_t told, bits;
};

#define NO_CONTEXT (SAZAMKHRI_REFUSED + SAZAMKHRI_NO_SUCH_CONTEXT)
#define BROKEN (SAZAMKHRI_REFUSED + SAZAMKHRI_LIST_BROKEN)
#define FOUR_FIFTHS UINT64_C(0x3FE999999999999A)
#define THIRD UINT64_C(0x3FD5555555555555)
#define ONE UINT64_C(0x3FF0000000000000)

/* The most entries whose words can be said. They have SIZE_MAX words, so that n * MOST + 1 have 5 - n in 64 bits. */
#define MOST (SIZE_MAX / WORDS)

static const struct cell cells[] = {
    {"a listed pair", 3, 0, 1, 1, WORDS, {0, 1, 4, 5, 2}, SAZAMKHRI_VALUE, FOUR_FIFTHS},
    {"the second pair listed", 3, 0, 2, 2, TWO, {0, 1, 4, 5, 2, 0, 2, 1, 3, 2}, SAZAMKHRI_VALUE, THIRD},
    {"the earlier of two entries", 3, 0, 1, 2, TWO, {0, 1, 4, 5, 2, 0, 1, 7, 7, 1}, SAZAMKHRI_VALUE, FOUR_FIFTHS},
    {"a wrong entry behind the count", 3, 0, 1, 1, TWO, {0, 1, 4, 5, 2, 2, 1, 0, 0, 0}, SAZAMKHRI_VALUE, FOUR_FIFTHS},
    {"a word behind an entry", 3, 0, 1, 1, WORDS + 1, {0, 1, 4, 5, 2, 9}, SAZAMKHRI_VALUE, FOUR_FIFTHS},
    {"four words behind an entry", 3, 0, 1, 1, TWO - 1, {0, 1, 4, 5, 2, 9, 9, 9, 9}, SAZAMKHRI_VALUE, FOUR_FIFTHS},
    {"a word behind two entries", 3, 0, 2, 2, TWO + 1, {0, 1, 4, 5, 2, 0, 2, 1, 3, 2, 9}, SAZAMKHRI_VALUE, THIRD},
    {"a first shared code of 0", 3, 0, 1, 1, WORDS, {0, 1, 4, 5, 0}, SAZAMKHRI_VALUE, FOUR_FIFTHS},
    {"a first shared code of 4,095", 3, 0, 1, 1, WORDS, {0, 1, 4, 5, 4095}, SAZAMKHRI_VALUE, FOUR_FIFTHS},
    {"a fifth word that is no code: 4,096", 3, 0, 1, 1, WORDS, {0, 1, 4, 5, 4096}, SAZAMKHRI_VALUE, FOUR_FIFTHS},
    {"a fifth word of 65,535", 3, 0, 1, 1, WORDS, {0, 1, 4, 5, 65535}, SAZAMKHRI_VALUE, FOUR_FIFTHS},
    {"all codes shared", 2, 0, 1, 1, WORDS, {0, 1, 7, 7, 2}, SAZAMKHRI_VALUE, ONE},
    {"1 code shared of 3", 2, 0, 1, 1, WORDS, {0, 1, 1, 3, 2}, SAZAMKHRI_VALUE, THIRD},
    {"99 codes shared of 100", 2, 0, 1, 1, WORDS, {0, 1, 99, 100, 2}, SAZAMKHRI_VALUE, UINT64_C(0x3FEFAE147AE147AE)},
    {"100 codes shared of 101", 2, 0, 1, 1, WORDS, {0, 1, 100, 101, 2}, SAZAMKHRI_VALUE, UINT64_C(0x3FEFAEE41E6A7498)},
    {"1 code shared of 65,535", 2, 0, 1, 1, WORDS, {0, 1, 1, 65535, 2}, SAZAMKHRI_VALUE, UINT64_C(0x3EF0001000100010)},
    {"65,534 of 65,535", 2, 0, 1, 1, WORDS, {0, 1, 65534, 65535, 2}, SAZAMKHRI_VALUE, UINT64_C(0x3FEFFFDFFFDFFFE0)},
    {"65,535 of 65,535", 2, 0, 1, 1, WORDS, {0, 1, 65535, 65535, 2}, SAZAMKHRI_VALUE, ONE},
    {"257 contexts, the last pair", 257, 255, 256, 1, WORDS, {255, 256, 4, 5, 2}, SAZAMKHRI_VALUE, FOUR_FIFTHS},
    {"65,535 contexts, the last pair", 65535, 65533, 65534, 1, WORDS, {65533, 65534, 7, 7, 2}, SAZAMKHRI_VALUE, ONE},
    {"a context against itself", 3, 1, 1, 1, WORDS, {0, 1, 4, 5, 2}, SAZAMKHRI_BLANK, 0},
    {"the only context against itself", 1, 0, 0, 0, 0, {0}, SAZAMKHRI_BLANK, 0},
    {"a pair that is not listed", 3, 0, 2, 1, WORDS, {0, 1, 4, 5, 2}, SAZAMKHRI_BLANK, 0},
    {"a pair listed behind the count", 3, 0, 2, 1, TWO, {0, 1, 4, 5, 2, 0, 2, 1, 3, 2}, SAZAMKHRI_BLANK, 0},
    {"a pair listed, no entry counts", 3, 0, 1, 0, WORDS, {0, 1, 4, 5, 2}, SAZAMKHRI_BLANK, 0},
    {"no list", 3, 0, 1, 0, 0, {0}, SAZAMKHRI_BLANK, 0},
    {"a cell where there are no contexts", 0, 0, 0, 0, 0, {0}, NO_CONTEXT, 0},
    {"a context number at the contexts", 3, 0, 3, 1, WORDS, {0, 1, 4, 5, 2}, NO_CONTEXT, 0},
    {"the same context number twice", 3, 3, 3, 1, WORDS, {0, 1, 4, 5, 2}, NO_CONTEXT, 0},
    {"context 65,535 of 65,535", 65535, 0, 65535, 0, 0, {0}, NO_CONTEXT, 0},
    {"no such context, and too many entries", 3, 3, 0, SIZE_MAX, WORDS, {0, 1, 4, 5, 2}, NO_CONTEXT, 0},
    {"no such context, and a wrong entry", 3, 3, 0, 1, WORDS, {1, 0, 4, 5, 2}, NO_CONTEXT, 0},
    {"an entry too many", 3, 0, 1, 2, WORDS, {0, 1, 4, 5, 2}, BROKEN, 0},
    {"an entry too many by a word", 3, 0, 1, 2, TWO - 1, {0, 1, 4, 5, 2, 0, 2, 1, 3}, BROKEN, 0},
    {"an entry of four words", 3, 0, 1, 1, WORDS - 1, {0, 1, 4, 5}, BROKEN, 0},
    {"two entries of four words", 3, 0, 1, 2, TWO - 2, {0, 1, 4, 5, 0, 2, 1, 3}, BROKEN, 0},
    {"an entry, and no list", 3, 0, 1, 1, 0, {0}, BROKEN, 0},
    {"an entry too many, a context against itself", 3, 1, 1, 2, WORDS, {0, 1, 4, 5, 2}, BROKEN, 0},
    {"as many entries as can be said", 3, 0, 1, SIZE_MAX, WORDS, {0, 1, 4, 5, 2}, BROKEN, 0},
    {"the most entries whose words can be said", 3, 0, 1, MOST, WORDS, {0, 1, 4, 5, 2}, BROKEN, 0},
    {"entries whose words are 1 in 64 bits", 3, 0, 1, 4 * MOST + 1, WORDS, {0, 1, 4, 5, 2}, BROKEN, 0},
    {"entries whose words are 2 in 64 bits", 3, 0, 1, 3 * MOST + 1, WORDS, {0, 1, 4, 5, 2}, BROKEN, 0},
    {"entries whose words are 3 in 64 bits", 3, 0, 1, 2 * MOST + 1, WORDS, {0, 1, 4, 5, 2}, BROKEN, 0},
    {"entries whose words are 4 in 64 bits", 3, 0, 1, MOST + 1, WORDS, {0, 1, 4, 5, 2}, BROKEN, 0},
    {"entries whose words are 9 in 64 bits", 3, 0, 1, MOST + 2, TWO, {0, 1, 4, 5, 2, 0, 2, 1, 3, 2}, BROKEN, 0},
    {"entries whose bytes are 0 in 64 bits", 3, 0, 1, SIZE_MAX / 2 + 1, WORDS, {0, 1, 4, 5, 2}, BROKEN, 0},
    {"an entry of one context", 3, 0, 2, 1, WORDS, {1, 1, 4, 5, 2}, BROKEN, 0},
    {"an entry whose contexts fall", 3, 0, 1, 1, WORDS, {1, 0, 4, 5, 2}, BROKEN, 0},
    {"an entry with no such context", 3, 0, 1, 1, WORDS, {0, 3, 4, 5, 2}, BROKEN, 0},
    {"an entry with nothing shared", 3, 0, 1, 1, WORDS, {0, 1, 0, 5, 2}, BROKEN, 0},
    {"an entry with no codes at all", 3, 0, 1, 1, WORDS, {0, 1, 0, 0, 2}, BROKEN, 0},
    {"an entry with more shared than in either", 3, 0, 1, 1, WORDS, {0, 1, 6, 5, 2}, BROKEN, 0},
    {"a wrong entry before the pair", 3, 0, 1, 2, TWO, {0, 2, 0, 5, 2, 0, 1, 4, 5, 2}, BROKEN, 0},
    {"a wrong entry behind the pair", 3, 0, 1, 2, TWO, {0, 1, 4, 5, 2, 0, 2, 0, 5, 2}, BROKEN, 0},
    {"a wrong entry, a context against itself", 3, 1, 1, 2, TWO, {0, 1, 4, 5, 2, 0, 2, 0, 5, 2}, BROKEN, 0},
    {"a wrong entry, a pair that is not listed", 3, 1, 2, 2, TWO, {0, 1, 4, 5, 2, 0, 2, 0, 5, 2}, BROKEN, 0},
};

enum { CELLS = sizeof cells / sizeof *cells };

/*
 * The call gives what it should, and the value has its bits, whatever stood there before. The list cannot be written,
 * and no byte beside the list or beside the value can be read or written. A list of one entry that ends with a page is
 * aligned for a word and for nothing more.
 */
static int celled(const struct cell *c, uint16_t first, uint16_t second, int at_end) {
    size_t length = c->list_len * sizeof *c->list;
    struct fenced from = fence(length, at_end);
    struct fenced to = fence(sizeof(double), at_end);
    const uint16_t *list = (const void *)from.bytes;
    double *value = (void *)to.bytes;
    memcpy(from.bytes, c->list, length);
    memset(to.bytes, 0xA5, sizeof *value);
    need(length == 0 || mprotect(from.all + PAGE, from.size - 2 * PAGE, PROT_READ) == 0, "a list to read only");
    uint64_t told = sazamkhri_cell(c->contexts, list, c->list_len, c->entries, first, second, value);
    int ok = told == c->told && bits_of(*value) == c->bits;
    unfence(from);
    unfence(to);
    return ok;
}

/* Every case, with its contexts in both orders. */
static void cell_borders(void) {
    for (const struct cell *c = cells; c < cells + CELLS; c++) {
        int ok = celled(c, c->first, c->second, 0) && celled(c, c->first, c->second, 1);
        ok = ok && celled(c, c->second, c->first, 0) && celled(c, c->second, c->first, 1);
        say(c->name, c->told, ok);
    }
}

/* The call gives what it should, and the value has its bits. */
static int as_told(const struct cell *c) {
    double value = -1.0;
    uint64_t told = sazamkhri_cell(c->contexts, c->list, c->list_len, c->entries, c->first, c->second, &value);
    return told == c->told && bits_of(value) == c->bits;
}

/* Every case with every fifth word, and another one in its second entry: what is given stays. */
static void fifth_words(void) {
    int ok = 1;
    for (uint32_t i = 0; i < CELLS * (UINT16_MAX + 1); i++) {
        struct cell c = cells[i % CELLS];
        c.list[WORDS - 1] = (uint16_t)(i / CELLS);
        c.list[TWO - 1] = (uint16_t)~(i / CELLS);
        ok = ok && as_told(&c);
    }
    say("all of these, with every fifth word", UINT16_MAX + 1, ok);
}

/*
 * A list with an entry for each two neighbours of 65,535 contexts. The last is found, and refused once it is wrong. A
 * list that is too short for them is refused.
 */
static void long_list(void) {
    enum { MANY = 65534, ALL = MANY * WORDS };
    struct fenced f = fence(ALL * sizeof(uint16_t), 1);
    uint16_t *list = (void *)f.bytes;
    double value = -1.0;
    for (size_t i = 0; i < MANY; i++) {
        const uint16_t entry[WORDS] = {(uint16_t)i, (uint16_t)(i + 1), 4, 5};
        memcpy(list + i * WORDS, entry, sizeof entry);
    }
    uint64_t told = sazamkhri_cell(MANY + 1, list, ALL, MANY, MANY, MANY - 1, &value);
    say("the last of 65,534 entries", told, told == SAZAMKHRI_VALUE && bits_of(value) == FOUR_FIFTHS);
    told = sazamkhri_cell(MANY + 1, list, ALL - 1, MANY, 0, 1, &value);
    say("65,534 entries, and a word less", told, told == BROKEN && bits_of(value) == 0);
    told = sazamkhri_cell(MANY + 1, list, ALL - MANY, MANY, 0, 1, &value);
    say("65,534 entries, and four words for each", told, told == BROKEN && bits_of(value) == 0);
    list[ALL - WORDS + 3] = 3;
    told = sazamkhri_cell(MANY + 1, list, ALL, MANY, 0, 1, &value);
    say("the last of 65,534 entries, if it is wrong", told, told == BROKEN && bits_of(value) == 0);
    unfence(f);
}

/* The numbers of a `pair=` line, one for each word of an entry. */
static void entry_from(const char *line, uint16_t *entry) {
    const char *at = line + strlen("pair=");
    for (size_t i = 0; i < WORDS; i++) {
        char *end;
        entry[i] = (uint16_t)strtoul(at, &end, 10);
        need(end > at && *end == (i + 1 < WORDS ? ' ' : '\n'), "the numbers of an entry");
        at = end + 1;
    }
}

/* The entries that a listing has, one for each `pair=` line. */
static size_t entries_of(const char *text, uint16_t *list) {
    size_t entries = 0;
    for (const char *line = strstr(text, "pair="); line != NULL; line = strstr(line + 1, "pair=")) {
        need(entries < SAZAMKHRI_PAIRS_LIMIT, "room for one more entry");
        entry_from(line, list + entries * WORDS);
        entries++;
    }
    return entries;
}

/* The entry that names two contexts, in either order, or NULL. */
static const uint16_t *entry_of(const uint16_t *list, size_t entries, unsigned a, unsigned b) {
    const uint16_t *found = NULL;
    for (const uint16_t *e = list; e < list + entries * WORDS; e += WORDS) {
        found = (e[0] == a && e[1] == b) || (e[0] == b && e[1] == a) ? e : found;
    }
    return found;
}

/* All cells of a sheet's heat map. Those of its listing's pairs have a value, the others are blank, none is refused. */
static void heat_map(const struct sheet *s) {
    uint16_t list[SAZAMKHRI_PAIRS_LIMIT * WORDS];
    unsigned contexts = 0, values = 0;
    int ok = 1;
    memset(list, 0xA5, sizeof list);
    size_t entries = entries_of(s->listing, list);
    need(sscanf(s->bytes, "k=%*u\ncontexts=%u\n", &contexts) == 1, "the number of contexts");
    for (unsigned i = 0; i < contexts * contexts; i++) {
        uint16_t a = (uint16_t)(i / contexts), b = (uint16_t)(i % contexts);
        const uint16_t *e = entry_of(list, entries, a, b);
        double value = -1.0;
        uint64_t told = sazamkhri_cell((uint16_t)contexts, list, sizeof list / sizeof *list, entries, a, b, &value);
        ok = ok && told == (e ? SAZAMKHRI_VALUE : SAZAMKHRI_BLANK);
        ok = ok && bits_of(value) == bits_of(e ? (double)e[2] / e[3] : 0.0);
        values += told == SAZAMKHRI_VALUE;
    }
    say(s->name, values, ok && values == 2 * entries);
}

static void heat_maps(void) {
    printf("heat maps, and how many of their cells have a value:\n");
    for (size_t i = 0; i < many; i++) {
        if (sheets[i].value < SAZAMKHRI_REFUSED) {
            heat_map(&sheets[i]);
        }
    }
}

/* The bits of a value as the processor rounds now. Of its state a call changes the flag for inexact results alone. */
static int has_bits(uint16_t shared, uint16_t in_either, uint64_t want) {
    const uint16_t list[WORDS] = {0, 1, shared, in_either};
    double value = 0.0;
    unsigned before = _mm_getcsr();
    uint64_t told = sazamkhri_cell(2, list, WORDS, 1, 0, 1, &value);
    unsigned changed = _mm_getcsr() ^ before;
    return told == SAZAMKHRI_VALUE && bits_of(value) == want && (changed & ~(unsigned)_MM_EXCEPT_INEXACT) == 0;
}

/* One third and four fifths, the last digit of their bits, in one way to round. */
static void rounded(const char *name, unsigned mode, unsigned third, unsigned fifths) {
    unsigned before = _mm_getcsr();
    _mm_setcsr((before & ~(unsigned)(_MM_ROUND_MASK | _MM_EXCEPT_MASK)) | mode);
    int ok = has_bits(1, 3, UINT64_C(0x3FD5555555555550) + third);
    ok = ok && has_bits(4, 5, UINT64_C(0x3FE9999999999990) + fifths) && has_bits(7, 7, ONE);
    _mm_setcsr(before);
    say(name, third, ok);
}

static void rounding(void) {
    rounded("rounded to nearest, as a program begins", _MM_ROUND_NEAREST, 0x5, 0xA);
    rounded("rounded up", _MM_ROUND_UP, 0x6, 0xA);
    rounded("rounded down", _MM_ROUND_DOWN, 0x5, 0x9);
    rounded("rounded towards zero", _MM_ROUND_TOWARD_ZERO, 0x5, 0x9);
}

static void version(void) {
    char text[32];
    snprintf(text, sizeof text, "%d.%d.%d", SAZAMKHRI_VERSION_MAJOR, SAZAMKHRI_VERSION_MINOR, SAZAMKHRI_VERSION_PATCH);
    say("version " SAZAMKHRI_VERSION, SAZAMKHRI_VERSION_MAJOR, strcmp(text, SAZAMKHRI_VERSION) == 0);
}

/* What a thread does: its number says with which sheet, or from which cell on, so that not all do the same at once. */
struct task {
    unsigned number;
    int wrong;
};

static void *listings(void *argument) {
    struct task *t = argument;
    const struct sheet *s = &sheets[t->number % 2];
    uint8_t text[SAZAMKHRI_LISTING_LIMIT];
    for (int i = 0; i < 200; i++) {
        uint64_t got = sazamkhri_listing((const uint8_t *)s->bytes, s->length, text, sizeof text);
        t->wrong |= got != s->value || !holds(text, sizeof text, s->listing);
    }
    return NULL;
}

static void *shared_cells(void *argument) {
    struct task *t = argument;
    for (unsigned i = t->number; i < 200 * CELLS; i++) {
        t->wrong |= !as_told(&cells[i % CELLS]);
    }
    return NULL;
}

static void threads(const char *name, void *(*work)(void *)) {
    pthread_t thread[4];
    struct task tasks[4];
    int wrong = 0;
    for (unsigned i = 0; i < 4; i++) {
        tasks[i] = (struct task){i, 0};
        need(pthread_create(&thread[i], NULL, work, &tasks[i]) == 0, "a thread");
    }
    for (unsigned i = 0; i < 4; i++) {
        need(pthread_join(thread[i], NULL) == 0, "a thread's end");
        wrong |= tasks[i].wrong;
    }
    say(name, 4, !wrong);
}

/* The sanitizers use the stack in their own way: there it is not measured. */
#if defined(__has_feature)
#if __has_feature(address_sanitizer)
#define SANITIZED
#endif
#endif
#if defined(__SANITIZE_ADDRESS__)
#define SANITIZED
#endif

#if !defined(SANITIZED)
/*
 * What the header says was measured: of a listing to a kilobyte, and what a cell stays under. The guard is so large
 * that no call steps over it. The thread library is told of a part of it as if it were stack, since it takes none that
 * is so small.
 */
enum {
    TEXT = SAZAMKHRI_LISTING_LIMIT,
    MEASURED = 30 * 1024,
    NEARLY = MEASURED - 1024,
    CELL_MEASURED = 128,
    AMPLE = 256 * 1024,
    GUARD = 1024 * 1024,
    AS_IF = 64 * 1024,
    BLANK = 0x5A,
    ALIGNED = 64
};

/* A stack with a guard below it, and the call that a thread makes on it: for a sheet or for a cell. */
struct run {
    void *(*call)(void *);
    const void *what;
    uint8_t *low;
    size_t size;
    uint8_t *frame;
    int ok;
};

/* The buffer of every run, fenced. */
static uint8_t *text_of_run;

/* Where the caller's frame stands is noted: below it is what the call uses, above it what the thread does. */
static void *call_listing(void *argument) {
    struct run *r = argument;
    const struct sheet *s = r->what;
    r->frame = __builtin_frame_address(0);
    r->ok = s->value == sazamkhri_listing((const uint8_t *)s->bytes, s->length, text_of_run, TEXT);
    return NULL;
}

static void *call_cell(void *argument) {
    static double value;
    struct run *r = argument;
    const struct cell *c = r->what;
    r->frame = __builtin_frame_address(0);
    r->ok = c->told == sazamkhri_cell(c->contexts, c->list, c->list_len, c->entries, c->first, c->second, &value);
    return NULL;
}

/* Without memset, so that the first call of all is also the first that looks it up. */
static void blank(uint8_t *bytes, size_t length) {
    volatile uint8_t *each = bytes;
    for (size_t i = 0; i < length; i++) {
        each[i] = BLANK;
    }
}

/* Makes the call in a thread on a stack of the run's size, right above the guard. */
static void on_stack(struct run *r) {
    pthread_attr_t attributes;
    pthread_t thread;
    size_t pages = (r->size + PAGE - 1) / PAGE * PAGE;
    uint8_t *all = mmap(NULL, GUARD + pages, PROT_NONE, MAP_PRIVATE | MAP_ANONYMOUS, -1, 0);
    need(all != MAP_FAILED && mprotect(all + GUARD, pages, PROT_READ | PROT_WRITE) == 0, "memory for a stack");
    r->low = all + GUARD;
    blank(r->low, r->size);
    need(pthread_attr_init(&attributes) == 0, "a thread's attributes");
    need(pthread_attr_setstack(&attributes, r->low - AS_IF, r->size + AS_IF) == 0, "a stack of its own");
    need(pthread_create(&thread, &attributes, r->call, r) == 0, "a thread");
    pthread_join(thread, NULL);
    pthread_attr_destroy(&attributes);
}

static void drop_stack(struct run *r) {
    munmap(r->low - GUARD, GUARD + (r->size + PAGE - 1) / PAGE * PAGE);
}

/* What a call uses of the stack: the bytes that it touches below its caller's frame. Those above are the thread's. */
struct use {
    void *(*call)(void *);
    const void *what;
    size_t bytes, above;
    int ok;
};

static struct use use_of(void *(*call)(void *), const void *what) {
    struct run r = {call, what, NULL, AMPLE, NULL, 0};
    on_stack(&r);
    const uint8_t *lowest = r.low;
    while (lowest < r.frame && *lowest == BLANK) {
        lowest++;
    }
    struct use u = {call, what, (size_t)(r.frame - lowest), (size_t)(r.low + r.size - r.frame), r.ok};
    drop_stack(&r);
    return u;
}

/* Makes the call where at most `room` bytes are left below the caller's frame, and at most 64 fewer. */
static int with_room(const struct use *u, size_t room) {
    struct run r = {u->call, u->what, NULL, u->above + room, NULL, 0};
    on_stack(&r);
    size_t left = (size_t)(r.frame - r.low);
    int ok = r.ok && left <= room && left + ALIGNED > room;
    drop_stack(&r);
    return ok;
}

/* Whether the system ends a process that makes the call with so little room. */
static int ends_with_room(const struct use *u, size_t room) {
    int status = 0;
    pid_t child = fork();
    need(child >= 0, "a process");
    if (child == 0) {
        struct rlimit none = {0, 0};
        setrlimit(RLIMIT_CORE, &none);
        with_room(u, room);
        _exit(0);
    }
    need(waitpid(child, &status, 0) == child, "a process's end");
    return WIFSIGNALED(status) && WTERMSIG(status) == SIGSEGV;
}

static void listing_stack(void) {
    struct use first = use_of(call_listing, &sheets[0]), most = {NULL, NULL, 0, 0, 0};
    for (size_t i = 0; i < many; i++) {
        struct use u = use_of(call_listing, &sheets[i]);
        say(sheets[i].name, u.bytes, u.ok && u.bytes <= SAZAMKHRI_STACK);
        most = u.bytes > most.bytes ? u : most;
    }
    say("the first call, which looks memset up", first.bytes, first.ok && first.bytes <= SAZAMKHRI_STACK);
    say("the most of all calls behind it", most.bytes, most.bytes > NEARLY && most.bytes <= MEASURED);
    printf("%-52s %7zu\n", "what the thread itself has above the call", most.above);
    say("a call with the stack that the header asks for", SAZAMKHRI_STACK, with_room(&most, SAZAMKHRI_STACK));
    say("a call with what was measured", most.bytes, with_room(&most, most.bytes + ALIGNED));
    say("a call with less is ended", most.bytes - ALIGNED, ends_with_room(&most, most.bytes - ALIGNED));
}

/* A cell uses too little to be tried with less. */
static void cell_stack(void) {
    struct use most = {NULL, NULL, 0, 0, 0};
    int ok = 1;
    for (const struct cell *c = cells; c < cells + CELLS; c++) {
        struct use u = use_of(call_cell, c);
        most = u.bytes > most.bytes ? u : most;
        ok = ok && u.ok;
    }
    say("the most of all cells", most.bytes, ok && most.bytes < CELL_MEASURED);
    say("a cell with the stack that the header asks for", SAZAMKHRI_CELL_STACK, with_room(&most, SAZAMKHRI_CELL_STACK));
}

static void stack(void) {
    struct fenced text = fence(TEXT, 1);
    text_of_run = text.bytes;
    printf("bytes of stack that a listing uses, at most %d:\n", SAZAMKHRI_STACK);
    listing_stack();
    printf("bytes of stack that a cell uses, at most %d:\n", SAZAMKHRI_CELL_STACK);
    cell_stack();
    unfence(text);
}
#else
static void stack(void) {}
#endif

int main(void) {
    setvbuf(stdout, NULL, _IOLBF, 0);
    make_sheets();
    stack();
    version();
    borders();
    cell_borders();
    fifth_words();
    long_list();
    heat_maps();
    rounding();
    threads("four threads, two sheets", listings);
    threads("four threads, the same lists", shared_cells);
    return failed;
}
