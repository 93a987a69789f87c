/*
 * The join for tests and the host's listing: the proved calls, which go by the
 * names proved_.. here, and then a mistake of one's choice about the first shared
 * code in what they leave. The trials must notice each (tests/scripts/test_trials.py).
 * MISTAKE names it, and WRONG_CALL the call that makes it, join or listing. Without
 * them both calls are right.
 */
#include <stddef.h>
#include <stdint.h>
#include <stdlib.h>
#include <string.h>

/* The words of an entry, and the most entries of a list. */
enum { ENTRY_WORDS = 5, CODE = ENTRY_WORDS - 1, MOST = 64 };

uint64_t proved_probe_join(uint16_t k, const uint16_t *offsets, size_t offsets_len, const uint16_t *codes,
                           size_t codes_len, uint16_t *list, size_t list_len, uint16_t *work, size_t work_len,
                           uint16_t *trail, size_t trail_len, uint64_t *answer, size_t answer_len);
uint64_t proved_sazamkhri_listing(const uint8_t *sheet, size_t sheet_len, uint8_t *text, size_t text_len);

static const char *in_join = "", *in_listing = "";

__attribute__((constructor)) static void choose(void) {
    const char *named = getenv("MISTAKE"), *call = getenv("WRONG_CALL");
    if (named && call) {
        in_join = strcmp(call, "join") == 0 ? named : "";
        in_listing = strcmp(call, "listing") == 0 ? named : "";
    }
}

/* An accepted join: its tables, and what it has left. */
struct join {
    uint16_t k;
    const uint16_t *offsets, *codes, *trail;
    uint16_t *list;
    size_t list_len, found, met;
};

/* A pair by its two contexts. */
struct pair {
    uint16_t lower, higher, shared, either, first, last;
};

static int joins(const char *name) {
    return strcmp(in_join, name) == 0;
}

static int lists(const char *name) {
    return strcmp(in_listing, name) == 0;
}

static uint16_t size_of(const struct join *join, uint16_t context) {
    return join->offsets[context + 1] - join->offsets[context];
}

static uint16_t code_at(const struct join *join, uint16_t context, uint16_t place) {
    return join->codes[join->offsets[context] + place];
}

static int has(const struct join *join, uint16_t context, uint16_t code) {
    for (uint16_t i = 0; i < size_of(join, context); i++) {
        if (code_at(join, context, i) == code) {
            return 1;
        }
    }
    return 0;
}

static struct pair pair_of(const struct join *join, uint16_t lower, uint16_t higher) {
    struct pair pair = {lower, higher, 0, 0, 0, 0};
    for (uint16_t i = 0; i < size_of(join, lower); i++) {
        uint16_t code = code_at(join, lower, i);
        if (has(join, higher, code)) {
            pair.first = pair.shared == 0 ? code : pair.first;
            pair.last = code;
            pair.shared++;
        }
    }
    pair.either = size_of(join, lower) + size_of(join, higher) - pair.shared;
    return pair;
}

/* More alike, or as alike and of smaller contexts. */
static int before(const struct pair *one, const struct pair *other) {
    uint32_t ours = (uint32_t)one->shared * other->either, theirs = (uint32_t)other->shared * one->either;
    if (ours != theirs) {
        return ours > theirs;
    }
    return one->lower != other->lower ? one->lower < other->lower : one->higher < other->higher;
}

/* A pair goes into the list, and those behind it move, all but their fifth words. Gives the number of pairs. */
static size_t insert(const struct join *join, struct pair *kept, size_t n, const struct pair *pair) {
    size_t at = n;
    while (at > 0 && before(pair, &kept[at - 1])) {
        at--;
    }
    if (at == join->k) {
        return n;
    }
    size_t more = n < join->k ? n + 1 : n;
    memmove(kept + at + 1, kept + at, (more - at - 1) * sizeof *kept);
    kept[at] = *pair;
    join->list[ENTRY_WORDS * at + CODE] = pair->first;
    return more;
}

/* Makes the list again, pair by pair as they met, and leaves fifth words where they were. All are 0 at first. */
static void leave_codes_behind(const struct join *join) {
    struct pair kept[MOST];
    size_t n = 0;
    for (size_t i = 0; i < join->met; i++) {
        struct pair pair = pair_of(join, join->trail[2 * i], join->trail[2 * i + 1]);
        n = insert(join, kept, n, &pair);
    }
}

/* Whether an entry and the one behind it are as alike, and the second has the smaller code. */
static int codes_fall(const uint16_t *entry) {
    const uint16_t *next = entry + ENTRY_WORDS;
    return (uint32_t)entry[2] * next[3] == (uint32_t)next[2] * entry[3] && next[CODE] < entry[CODE];
}

static void swap_entries(uint16_t *entry) {
    uint16_t first[ENTRY_WORDS];
    memcpy(first, entry, sizeof first);
    memcpy(entry, entry + ENTRY_WORDS, sizeof first);
    memcpy(entry + ENTRY_WORDS, first, sizeof first);
}

/* Sorts entries that are as alike by their codes. */
static void rank_by_codes(const struct join *join) {
    size_t i = 0;
    while (i + 1 < join->found) {
        uint16_t *entry = join->list + ENTRY_WORDS * i;
        if (codes_fall(entry)) {
            swap_entries(entry);
            i -= i > 0;
        } else {
            i++;
        }
    }
}

/* The fifth word of an entry, where `was` stood before the call. */
static uint16_t code_of(const struct join *join, const uint16_t *entry, uint16_t was) {
    struct pair pair = pair_of(join, entry[0], entry[1]);
    uint16_t of_lower = code_at(join, pair.lower, 0), of_higher = code_at(join, pair.higher, 0);
    const struct {
        const char *name;
        uint16_t code;
    } wrong[] = {
        {"the last shared code", pair.last},
        {"the first code of the lower context", of_lower},
        {"the first code of the higher context", of_higher},
        {"the smallest code of the two", of_lower < of_higher ? of_lower : of_higher},
        {"the code counts from 1", pair.first + 1},
        {"the code has 8 bits", (uint8_t)pair.first},
        {"the fifth word is 0", 0},
        {"the fifth word is left as it was", was},
        {"shared stands twice", pair.shared},
        {"the fifth word does not move with its entry", 0},
    };
    for (size_t i = 0; i < sizeof wrong / sizeof *wrong; i++) {
        if (joins(wrong[i].name)) {
            return wrong[i].code;
        }
    }
    return entry[CODE];
}

/* The mistakes in what an accepted join has left. `was` is its list before the call. */
static void spoil(const struct join *join, const uint16_t *was) {
    for (size_t i = 0; i < join->found; i++) {
        size_t at = ENTRY_WORDS * i;
        join->list[at + CODE] = code_of(join, join->list + at, was[at + CODE]);
    }
    if (joins("the fifth word does not move with its entry")) {
        leave_codes_behind(join);
    }
    if (joins("the ranking looks at the code")) {
        rank_by_codes(join);
    }
    if (joins("words behind the last whole entry are left as they were")) {
        size_t whole = join->list_len / ENTRY_WORDS * ENTRY_WORDS;
        memcpy(join->list + whole, was + whole, (join->list_len - whole) * sizeof *was);
    }
}

/* How many words of list the proved call is lent: as many as there are, or else what makes the mistake. */
static size_t passes(uint16_t k, size_t list_len) {
    size_t needed = ENTRY_WORDS * (size_t)k;
    if (list_len < needed && list_len >= needed - k && joins("a list of 4k words is enough")) {
        return needed;
    }
    if (list_len + 1 == needed && joins("a list that lacks a word is enough")) {
        return needed;
    }
    return joins("a list that just fits is refused") && list_len == needed ? 0 : list_len;
}

uint64_t probe_join(uint16_t k, const uint16_t *offsets, size_t offsets_len, const uint16_t *codes, size_t codes_len,
                    uint16_t *list, size_t list_len, uint16_t *work, size_t work_len, uint16_t *trail,
                    size_t trail_len, uint64_t *answer, size_t answer_len) {
    size_t lent = passes(k, list_len), most = list_len > lent ? list_len : lent;
    uint16_t *was = malloc(2 * most + 1), *own = malloc(2 * most + 1);
    memcpy(was, list, 2 * list_len);
    memcpy(own, list, 2 * list_len);
    proved_probe_join(k, offsets, offsets_len, codes, codes_len, own, lent, work, work_len, trail, trail_len, answer,
                      answer_len);
    memcpy(list, own, 2 * list_len);
    if (answer_len >= 4 && answer[0] == 0 && list_len >= lent) {
        struct join join = {k, offsets, codes, trail, list, list_len, answer[1], answer[3]};
        spoil(&join, was);
    }
    free(was);
    free(own);
    return 0;
}

/* Takes the last number of each line that has several. Gives the length that is left. */
static uint64_t without_codes(uint8_t *text, uint64_t length) {
    uint64_t end = 0, space = 0;
    for (uint64_t i = 0; i < length; i++) {
        if (text[i] == 10 && space > 0) {
            end = space;
            space = 0;
        }
        space = text[i] == ' ' ? end : space;
        text[end++] = text[i];
    }
    memset(text + end, 0, length - end);
    return end;
}

/* Whether a listing has 52 pairs to hold, by its first line. */
static int asks_for_52(const uint8_t *text) {
    return text[4] == 10 && (text[2] - '0') * 10 + (text[3] - '0') >= 52;
}

uint64_t sazamkhri_listing(const uint8_t *sheet, size_t sheet_len, uint8_t *text, size_t text_len) {
    uint64_t told = proved_sazamkhri_listing(sheet, sheet_len, text, text_len);
    if (told >= 1000000) {
        return told;
    }
    if (lists("the code is not printed")) {
        return without_codes(text, told);
    }
    if (lists("256 words are lent for the list") && asks_for_52(text)) {
        memset(text, 0, text_len);
        return 1000006;
    }
    return told;
}
