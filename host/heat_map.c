/*
 * An example host: paints the heat map of a sheet.
 *
 *     heat_map [SHEET]
 *
 * Reads the sheet from the file named, or from standard input, and prints a
 * picture (SVG, which any browser shows): a square with a row and a column for
 * each context. Where the two of a listed pair cross, the cell is coloured, the
 * darker the more alike they are; all other cells are blank. What goes wrong is
 * told on standard error, with nothing on standard output. The exit status is 0
 * for a picture, 1 for a refused sheet, and 2 if the sheet cannot be read, the
 * picture not written, or a call answers what it never should.
 *
 * The list comes from sazamkhri_listing, and every cell from sazamkhri_cell. The
 * same sheet always gives the same bytes.
 */
#include <stdlib.h>

#include "sheet_file.h"

/* A sheet that was listed has no more contexts, and its list no more pairs. */
enum { CONTEXTS = 256, PAIRS = SAZAMKHRI_PAIRS_LIMIT, WORDS = SAZAMKHRI_ENTRY_WORDS };

/* Text that is still to be read. */
struct text {
    const uint8_t *at;
    const uint8_t *end;
};

/* A cell that is not blank. */
struct cell {
    uint16_t row;
    uint16_t column;
    double value;
};

/* All that the picture shows: the cells stand row by row. */
struct map {
    uint16_t contexts;
    uint16_t pairs;
    uint16_t list[WORDS * PAIRS];
    size_t coloured;
    struct cell cells[CONTEXTS * CONTEXTS];
};

/* Sizes in the picture, in pixels. */
enum { LEFT = 52, TOP = 92, GAP = 28, SCALE_WIDTH = 150, SCALE_HEIGHT = 206, BOTTOM = 28, LEAST_WIDTH = 420 };
enum { SIDE = 720, SMALLEST_CELL = 4, LARGEST_CELL = 40, CLOSE = 12, SWATCH = 18, SWATCH_TO_SWATCH = 26 };

struct layout {
    int contexts;
    int cell;
    int side;
    /* Every so many contexts have their number at the edges. */
    int step;
    int width;
    int height;
};

/* ---- reading what sheet and listing say */

/* Takes these letters, if they come next. */
static int letters(struct text *text, const char *next) {
    size_t length = strlen(next);
    if ((size_t)(text->end - text->at) < length || memcmp(text->at, next, length) != 0) {
        return 0;
    }
    text->at += length;
    return 1;
}

/* Takes letters and behind them a number up to 65,535, if these come next. */
static int number(struct text *text, const char *before, uint16_t *value) {
    uint32_t sum = 0;
    if (!letters(text, before)) {
        return 0;
    }
    const uint8_t *first = text->at;
    while (text->at < text->end && *text->at >= '0' && *text->at <= '9' && sum <= UINT16_MAX) {
        sum = 10 * sum + (uint32_t)(*text->at - '0');
        text->at++;
    }
    *value = (uint16_t)sum;
    return text->at > first && sum <= UINT16_MAX;
}

/* The number of contexts: a sheet that was listed has a line for it, behind its first. */
static int read_contexts(struct text sheet, struct map *map) {
    while (sheet.at < sheet.end && !letters(&sheet, "\ncontexts=")) {
        sheet.at++;
    }
    return number(&sheet, "", &map->contexts) && letters(&sheet, "\n") && map->contexts <= CONTEXTS;
}

/* One entry of the list, from a line `pair=` of a listing: a number for each of its words. */
static int read_entry(struct text *listing, uint16_t *entry) {
    int well = 1;
    for (size_t word = 0; well && word < WORDS; word++) {
        well = number(listing, word == 0 ? "pair=" : " ", entry + word);
    }
    return well && letters(listing, "\n");
}

/* The entries of the list, from the lines `pair=` of a listing. */
static int read_list(struct text listing, struct map *map) {
    uint16_t unused;
    int well = number(&listing, "k=", &unused) && number(&listing, "\nfound=", &map->pairs) && map->pairs <= PAIRS &&
               number(&listing, "\nevents=", &unused) && number(&listing, "\nmet=", &unused) && letters(&listing, "\n");
    for (size_t pair = 0; well && pair < map->pairs; pair++) {
        well = read_entry(&listing, map->list + WORDS * pair);
    }
    return well && listing.at == listing.end;
}

/* ---- the cells */

/* Says of a cell why it is not painted: of these lists none is refused, and no other answer is ever given. */
static void tell(uint16_t row, uint16_t column, uint64_t answer) {
    fprintf(stderr, "heat_map: the cell of contexts %u and %u ", (unsigned)row, (unsigned)column);
    if (answer >= SAZAMKHRI_REFUSED) {
        uint64_t refusal = answer - SAZAMKHRI_REFUSED;
        fprintf(stderr, "is refused (%u): %s\n", (unsigned)refusal, meaning(refusal));
    } else {
        fprintf(stderr, "has the answer %u, which no cell has\n", (unsigned)answer);
    }
}

/* Asks for one cell, and keeps it if it has a value. Gives 0 if it is neither blank nor has one, and says so. */
static int ask(struct map *map, uint16_t row, uint16_t column) {
    double value;
    uint64_t answer =
        sazamkhri_cell(map->contexts, map->list, WORDS * (size_t)map->pairs, map->pairs, row, column, &value);
    if (answer != SAZAMKHRI_BLANK && answer != SAZAMKHRI_VALUE) {
        tell(row, column, answer);
        return 0;
    }
    if (answer == SAZAMKHRI_VALUE) {
        map->cells[map->coloured++] = (struct cell){row, column, value};
    }
    return 1;
}

/* Asks for every cell of the square, also for a context against itself: what is blank is for the call to say. */
static int ask_all(struct map *map) {
    uint32_t cells = (uint32_t)map->contexts * map->contexts;
    map->coloured = 0;
    for (uint32_t cell = 0; cell < cells; cell++) {
        if (!ask(map, (uint16_t)(cell / map->contexts), (uint16_t)(cell % map->contexts))) {
            return 0;
        }
    }
    return 1;
}

/* ---- the picture */

static int at_least(int least, int size) {
    return size < least ? least : size;
}

/* Cells as large as fits, and numbers at the edges that are not in each other's way. */
static struct layout measure(const struct map *map) {
    static const int steps[] = {1, 2, 5, 10};
    struct layout plan = {map->contexts, LARGEST_CELL, 0, 0, 0, 0};
    if (map->contexts * LARGEST_CELL > SIDE) {
        plan.cell = at_least(SMALLEST_CELL, SIDE / map->contexts);
    }
    /* Numbers of three digits need more room. */
    int apart = map->contexts > 100 ? 32 : 24, choice = 0;
    while (steps[choice] * plan.cell < apart) {
        choice++;
    }
    plan.step = steps[choice];
    plan.side = plan.contexts * plan.cell;
    plan.width = at_least(LEAST_WIDTH, LEFT + plan.side + GAP + SCALE_WIDTH);
    plan.height = TOP + at_least(SCALE_HEIGHT, plan.side) + BOTTOM;
    return plan;
}

/* Red, green or blue of a value. Along the ramp, from 0 to 1, all three fall: a greater value is darker. */
static unsigned channel(double value, int which) {
    enum { LAST = 3 };
    static const int ramp[LAST + 1][3] = {{187, 211, 234}, {94, 154, 206}, {29, 92, 160}, {8, 36, 82}};
    double place = value * LAST;
    int stop = place < LAST ? (int)place : LAST - 1;
    int from = ramp[stop][which], to = ramp[stop + 1][which];
    return (unsigned)(from + (to - from) * (place - stop) + 0.5);
}

static void fill(double value) {
    printf(" fill=\"#%02x%02x%02x\"", channel(value, 0), channel(value, 1), channel(value, 2));
}

/* The value as the shortest decimal that reads back as the same value: 17 digits are always enough. */
static void decimal(double value) {
    char text[32];
    int digits = 0;
    do {
        digits++;
        snprintf(text, sizeof text, "%.*g", digits, value);
    } while (digits < 17 && strtod(text, NULL) != value);
    fputs(text, stdout);
}

/* What it is, in words: for those who listen to the picture, and above the square. */
static void paint_head(const struct map *map, const struct layout *plan) {
    unsigned contexts = map->contexts, pairs = map->pairs;
    printf("<?xml version=\"1.0\" encoding=\"UTF-8\"?>\n");
    printf("<svg xmlns=\"http://www.w3.org/2000/svg\" version=\"1.1\" width=\"%d\" height=\"%d\" ", plan->width,
           plan->height);
    printf("viewBox=\"0 0 %d %d\"\n", plan->width, plan->height);
    printf("     font-family=\"sans-serif\" font-size=\"12\" fill=\"#202020\">\n");
    printf("<title>Heat map of the listed pairs</title>\n");
    printf("<desc>A square with a row and a column for each context. Contexts: %u. Pairs listed: %u. Where the two of\n"
           "a listed pair cross, the cell is coloured, the darker the more alike they are. All other cells are blank,\n"
           "and so is the diagonal.</desc>\n",
           contexts, pairs);
    printf("<rect width=\"%d\" height=\"%d\" fill=\"#ffffff\"/>\n", plan->width, plan->height);
    printf("<text x=\"%d\" y=\"30\" font-size=\"17\" font-weight=\"bold\">Heat map of the listed pairs</text>\n", LEFT);
    printf("<text x=\"%d\" y=\"51\">Contexts, in rows and columns: %u. Pairs listed: %u.</text>\n", LEFT, contexts,
           pairs);
}

/* The numbers of the contexts along the upper edge. */
static void paint_columns(const struct layout *plan) {
    printf("<g id=\"columns\" text-anchor=\"middle\">\n");
    for (int context = 0; context < plan->contexts; context += plan->step) {
        printf("<text x=\"%g\" y=\"%d\">%d</text>\n", LEFT + (context + 0.5) * plan->cell, TOP - 8, context);
    }
    printf("</g>\n");
}

/* The same numbers along the left edge; a digit is about 0.7 em high. */
static void paint_rows(const struct layout *plan) {
    printf("<g id=\"rows\" text-anchor=\"end\">\n");
    for (int context = 0; context < plan->contexts; context += plan->step) {
        printf("<text x=\"%d\" y=\"%g\" dy=\"0.35em\">%d</text>\n", LEFT - 8, TOP + (context + 0.5) * plan->cell,
               context);
    }
    printf("</g>\n");
}

/* The cells that are not blank, on a white square. The context of the row is named first. */
static void paint_cells(const struct map *map, const struct layout *plan) {
    printf("<rect id=\"square\" x=\"%d\" y=\"%d\" width=\"%d\" height=\"%d\" fill=\"#ffffff\"/>\n", LEFT, TOP,
           plan->side, plan->side);
    printf("<g id=\"cells\">\n");
    for (size_t at = 0; at < map->coloured; at++) {
        const struct cell *cell = map->cells + at;
        printf("<rect x=\"%d\" y=\"%d\" width=\"%d\" height=\"%d\"", LEFT + cell->column * plan->cell,
               TOP + cell->row * plan->cell, plan->cell, plan->cell);
        fill(cell->value);
        printf("><title>contexts %u and %u: ", (unsigned)cell->row, (unsigned)cell->column);
        decimal(cell->value);
        printf("</title></rect>\n");
    }
    printf("</g>\n");
}

/* Thin lines between the cells, paler where they are close, and a frame. The pointer goes through to the cell below. */
static void paint_grid(const struct layout *plan) {
    printf("<g fill=\"none\" shape-rendering=\"crispEdges\" pointer-events=\"none\">\n");
    printf("<path id=\"grid\" stroke=\"%s\" d=\"", plan->cell < CLOSE ? "#ececec" : "#d4d4d4");
    for (int line = 1; line < plan->contexts; line++) {
        printf("\nM%d %dh%d", LEFT, TOP + line * plan->cell, plan->side);
        printf(" M%d %dv%d", LEFT + line * plan->cell, TOP, plan->side);
    }
    printf("\"/>\n");
    printf("<rect x=\"%d\" y=\"%d\" width=\"%d\" height=\"%d\" stroke=\"#808080\"/>\n", LEFT, TOP, plan->side,
           plan->side);
    printf("</g>\n");
}

/* One swatch of the scale, the n-th from above, with its value beside it. 0, which no listed pair has, is blank. */
static void paint_swatch(const struct layout *plan, int nth, double value) {
    int left = LEFT + plan->side + GAP, top = TOP + 32 + nth * SWATCH_TO_SWATCH;
    printf("<rect x=\"%d\" y=\"%d\" width=\"%d\" height=\"%d\" stroke=\"#808080\"", left, top, SWATCH, SWATCH);
    if (value > 0) {
        fill(value);
    } else {
        printf(" fill=\"#ffffff\"");
    }
    printf("/>\n<text x=\"%d\" y=\"%d\">", left + SWATCH_TO_SWATCH, top + 13);
    if (value > 0) {
        decimal(value);
    } else {
        printf("blank: not listed");
    }
    printf("</text>\n");
}

/* What the darkness means: a few values, the greatest first. */
static void paint_scale(const struct layout *plan) {
    static const double values[] = {1, 0.8, 0.6, 0.4, 0.2, 0.05, 0};
    enum { VALUES = sizeof values / sizeof values[0] };
    int left = LEFT + plan->side + GAP;
    printf("<g id=\"scale\">\n");
    printf("<text x=\"%d\" y=\"%d\" font-weight=\"bold\">Similarity</text>\n", left, TOP + 8);
    printf("<text x=\"%d\" y=\"%d\">shared / union</text>\n", left, TOP + 23);
    for (int nth = 0; nth < VALUES; nth++) {
        paint_swatch(plan, nth, values[nth]);
    }
    printf("</g>\n");
}

static void paint(const struct map *map) {
    struct layout plan = measure(map);
    paint_head(map, &plan);
    paint_columns(&plan);
    paint_rows(&plan);
    paint_cells(map, &plan);
    paint_grid(&plan);
    paint_scale(&plan);
    printf("</svg>\n");
}

/* Paints a sheet's heat map, on standard output. Nothing is painted before all cells are known. */
static int heat_map(const uint8_t *sheet, size_t length) {
    static uint8_t text[SAZAMKHRI_LISTING_LIMIT];
    static struct map map;
    uint64_t value = sazamkhri_listing(sheet, length, text, sizeof text);
    if (value >= SAZAMKHRI_REFUSED) {
        return refused(value - SAZAMKHRI_REFUSED);
    }
    if (!read_contexts((struct text){sheet, sheet + length}, &map) ||
        !read_list((struct text){text, text + value}, &map)) {
        fprintf(stderr, "heat_map: sheet and listing are not of the form that they always have\n");
        return FAULT;
    }
    if (!ask_all(&map)) {
        return FAULT;
    }
    paint(&map);
    if (ferror(stdout) || fflush(stdout) != 0) {
        return fault("heat_map", "standard output");
    }
    return DONE;
}

int main(int argc, char **argv) {
    return with_sheet("heat_map", argc, argv, heat_map);
}
