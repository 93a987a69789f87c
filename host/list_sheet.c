/*
 * An example host: lists a sheet.
 *
 *     list_sheet [SHEET]
 *
 * Reads the sheet from the file named, or from standard input, and prints its
 * listing. What goes wrong is told on standard error, with nothing on standard
 * output. The exit status is 0 for a listing, 1 for a refused sheet, and 2 if the
 * sheet cannot be read or the listing not written.
 */
#include "sheet_file.h"

/* Lists a sheet, on standard output. */
static int list(const uint8_t *sheet, size_t length) {
    static uint8_t text[SAZAMKHRI_LISTING_LIMIT];
    uint64_t value = sazamkhri_listing(sheet, length, text, sizeof text);
    if (value >= SAZAMKHRI_REFUSED) {
        return refused(value - SAZAMKHRI_REFUSED);
    }
    if (fwrite(text, 1, (size_t)value, stdout) != (size_t)value || fflush(stdout) != 0) {
        return fault("list_sheet", "standard output");
    }
    return DONE;
}

int main(int argc, char **argv) {
    return with_sheet("list_sheet", argc, argv, list);
}
