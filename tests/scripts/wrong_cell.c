/*
 * Both calls for a cell of the heat map, plainly written, with a mistake of one's
 * choice: the trials must notice each (tests/scripts/test_trials.py). MISTAKE
 * names it, and WRONG_CALL the call that makes it, probe or host. Without them
 * both calls are right.
 */
#include <stddef.h>
#include <stdint.h>
#include <stdlib.h>
#include <string.h>

/* The words of an entry. */
enum { ENTRY_WORDS = 5 };

static const char *mistake = "";
static int probe_is_wrong, host_is_wrong;

__attribute__((constructor)) static void choose(void) {
    const char *named = getenv("MISTAKE"), *call = getenv("WRONG_CALL");
    if (named && call) {
        mistake = named;
        probe_is_wrong = strcmp(call, "probe") == 0;
        host_is_wrong = strcmp(call, "host") == 0;
    }
}

/* What is asked for, and whether the call makes the mistake. */
struct call {
    uint16_t contexts;
    const uint16_t *list;
    size_t list_len, entries;
    uint16_t first, second;
    int is_wrong;
};

/* A refusal, or a number of 0 and what the cell holds. */
struct told {
    uint64_t number, place;
    int is_value;
    double value;
};

static int makes(const struct call *call, const char *name) {
    return call->is_wrong && strcmp(mistake, name) == 0;
}

static struct told no(uint64_t number, uint64_t place) {
    struct told told = {number, place, 0, 0.0};
    return told;
}

static size_t width(const struct call *call) {
    return ENTRY_WORDS - makes(call, "an entry has four words");
}

static int above(const struct call *call, uint16_t number) {
    return number >= call->contexts + makes(call, "a number that equals the contexts passes");
}

static size_t counted(const struct call *call) {
    if (makes(call, "the words of the entries are counted in 64 bits")) {
        return call->entries * ENTRY_WORDS / ENTRY_WORDS;
    }
    if (makes(call, "the count has 32 bits")) {
        return (uint32_t)call->entries;
    }
    return makes(call, "the count has 16 bits") ? (uint16_t)call->entries : call->entries;
}

static int too_many(const struct call *call) {
    size_t words = width(call) - makes(call, "the length is counted in entries of four words");
    size_t odd_words = call->list_len % words;
    size_t held = call->list_len / words + (odd_words && makes(call, "the length is rounded up to whole entries"));
    return counted(call) > held;
}

static int bad_contexts(const struct call *call, const uint16_t *entry) {
    if (entry[0] == entry[1] && makes(call, "an entry of one context passes")) {
        return 0;
    }
    if (entry[0] > entry[1] && makes(call, "falling contexts pass")) {
        return 0;
    }
    return entry[0] >= entry[1]
        || entry[1] >= call->contexts + makes(call, "a higher context that equals the contexts passes");
}

static int bad_code(const struct call *call, const uint16_t *entry) {
    return (entry[4] == 0 && makes(call, "a fifth word of 0 is refused"))
        || (entry[4] > 4095 && makes(call, "a fifth word that is no code is refused"));
}

static int bad_counts(const struct call *call, const uint16_t *entry) {
    if (entry[2] == 0) {
        return !makes(call, "nothing shared passes");
    }
    if (entry[2] == entry[3]) {
        return makes(call, "shared that equals the union is refused");
    }
    return entry[2] > entry[3] + makes(call, "shared one above the union passes");
}

static int names(const struct call *call, const uint16_t *entry) {
    if (entry[0] == call->first && entry[1] == call->second) {
        return 1;
    }
    return entry[0] == call->second && entry[1] == call->first && !makes(call, "one order alone is found");
}

/* The index of the first bad entry, or SIZE_MAX. */
static size_t bad_entry(const struct call *call) {
    size_t end = counted(call);
    if (makes(call, "entries behind the counted ones are judged")) {
        end = call->list_len / width(call);
    }
    if (makes(call, "the last entry is not judged") && end > 0) {
        end -= 1;
    }
    for (size_t i = 0; i < end; i++) {
        const uint16_t *entry = call->list + width(call) * i;
        if (bad_contexts(call, entry) || bad_counts(call, entry) || bad_code(call, entry)) {
            return i;
        }
        if (names(call, entry) && makes(call, "entries behind the one found are not judged")) {
            break;
        }
    }
    return SIZE_MAX;
}

static const uint16_t *found(const struct call *call) {
    const uint16_t *last = NULL;
    for (size_t i = 0; i < counted(call); i++) {
        const uint16_t *entry = call->list + width(call) * i;
        if (names(call, entry)) {
            last = entry;
            if (!makes(call, "the later of two entries counts")) {
                break;
            }
        }
    }
    return last;
}

static double quotient(const struct call *call, const uint16_t *entry) {
    double shared = entry[2], either = entry[3 + makes(call, "the union is read from the fifth word")];
    if (makes(call, "the quotient is upside down")) {
        return either / shared;
    }
    if (makes(call, "the quotient is rounded twice")) {
        return 1.0 / either * shared;
    }
    if (makes(call, "the quotient is worked out in single precision")) {
        return (float)shared / (float)either;
    }
    if (makes(call, "the quotient is rounded to four decimals")) {
        return (double)(int)(shared / either * 10000 + 0.5) / 10000;
    }
    return shared / either;
}

/* Refusal 13, or a number of 0. */
static struct told judge_numbers(const struct call *call) {
    int second = above(call, call->second);
    if (second && makes(call, "the second number is judged first")) {
        return no(13, 1);
    }
    if (above(call, call->first)) {
        return no(13, 0);
    }
    return second ? no(13, !makes(call, "the second number is told at place 0")) : no(0, 0);
}

static struct told told_of(const struct call *call) {
    if (makes(call, "the count is judged before the numbers") && too_many(call)) {
        return no(17, 0);
    }
    struct told told = judge_numbers(call);
    if (told.number) {
        return told;
    }
    if (too_many(call)) {
        return no(17, makes(call, "the count is told at the place that it has") ? call->list_len / width(call) : 0);
    }
    if (call->first == call->second && makes(call, "entries are not judged for a context against itself")) {
        return told;
    }
    size_t bad = bad_entry(call);
    if (bad != SIZE_MAX) {
        return no(17, makes(call, "places have 16 bits") ? (uint16_t)bad : bad);
    }
    const uint16_t *entry = found(call);
    if (call->first == call->second) {
        told.is_value = makes(call, "a context is like itself");
        told.value = told.is_value;
    } else if (entry || makes(call, "a blank is told as a value")) {
        told.is_value = 1;
        told.value = entry ? quotient(call, entry) : 0.0;
    }
    return told;
}

/* What both calls do to the buffers that they are lent. */
static void leave(const struct call *call, const struct told *told, double *value) {
    int refused = told->number != 0, blank = !refused && !told->is_value;
    if (!(refused && makes(call, "the value is left as it was when refused"))
        && !(blank && makes(call, "the value is left as it was when blank"))) {
        *value = told->value;
    }
    if (blank && makes(call, "the value is -0 when blank")) {
        *value = -0.0;
    }
    if (makes(call, "the list is changed") && call->list_len > 0) {
        ((uint16_t *)call->list)[call->list_len - 1] ^= 1;
    }
    if (makes(call, "a word in front of the list is changed")) {
        ((uint16_t *)call->list)[-1] ^= 1;
    }
}

static void answer_with(const struct call *call, const struct told *told, uint64_t *answer) {
    answer[0] = told->number;
    answer[1] = told->number ? told->place : (uint64_t)told->is_value;
    if (!makes(call, "the third word of the answer is left")) {
        answer[2] = 0;
    }
    if (!makes(call, "the fourth word of the answer is left")) {
        answer[3] = 0;
    }
}

uint64_t probe_cell(uint16_t contexts, const uint16_t *list, size_t list_len, size_t entries, uint16_t first,
                    uint16_t second, double *value, size_t value_len, uint64_t *answer, size_t answer_len) {
    struct call call = {contexts, list, list_len, entries, first, second, probe_is_wrong};
    if (makes(&call, "something is done with a short answer") && value_len > 0 && answer_len < 4) {
        *value = 0.0;
    }
    if (makes(&call, "something is done with no value") && value_len == 0 && answer_len >= 4) {
        answer[0] = 0;
    }
    if (value_len < 1 || answer_len < 4) {
        return 0;
    }
    struct told told = told_of(&call);
    leave(&call, &told, value);
    answer_with(&call, &told, answer);
    if (makes(&call, "a word behind the value is changed")) {
        value[1] = 0.5;
    }
    if (makes(&call, "a word behind the answer is changed")) {
        answer[4] = 7;
    }
    return makes(&call, "it returns the number") ? told.number : 0;
}

uint64_t sazamkhri_cell(uint16_t contexts, const uint16_t *list, size_t list_len, size_t entries, uint16_t first,
                        uint16_t second, double *value) {
    struct call call = {contexts, list, list_len, entries, first, second, host_is_wrong};
    struct told told = told_of(&call);
    leave(&call, &told, value);
    if (makes(&call, "a word behind the value is changed")) {
        value[1] = 0.5;
    }
    if (told.number) {
        return (makes(&call, "the number is told alone") ? 0 : 1000000) + told.number;
    }
    return (uint64_t)told.is_value;
}
