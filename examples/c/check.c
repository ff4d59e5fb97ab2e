/* Holds another planner's listing against the rules, and says what is wrong: check SHEET LISTING.
 * LISTING is text, a row to a line: object, attribute, the 16 hexadecimal digits of the value's bits.
 */
#include <inttypes.h>
#include <stdio.h>

#include "dogma.h"

enum { LONGEST = 1 << 20, ROOM = 16384 };

static uint8_t sheet[LONGEST];
static dogma_line listing[ROOM];
static dogma_state states[DOGMA_OBJECTS];
static dogma_collected collected[ROOM];
static dogma_row rows[ROOM];
static dogma_work work[ROOM];
static dogma_entry entries[ROOM];
static dogma_plain plain[ROOM];
static double collected_values[ROOM], bases[ROOM], values[ROOM], entry_values[ROOM];

static size_t read_sheet(const char *name)
{
    FILE *file = fopen(name, "rb");
    if (!file)
        return 0; /* no bytes: refused as a sheet without a header */
    const size_t length = fread(sheet, 1, LONGEST, file);
    fclose(file);
    return length;
}

/* The lines of a text; 0, with a word about it, where one is no line. */
static int read_listing(const char *name, size_t *count)
{
    FILE *file = fopen(name, "r");
    char text[128], end;
    for (*count = 0; file && fgets(text, sizeof text, file); *count += 1) {
        uint32_t object;
        int32_t attribute;
        uint64_t bits;
        if (*count == ROOM || sscanf(text, "%" SCNu32 " %" SCNd32 " %16" SCNx64 " %c", &object, &attribute, &bits, &end) != 3) {
            fprintf(stderr, "line %zu is no row: %s", *count, text);
            fclose(file);
            return 0;
        }
        listing[*count][DOGMA_LINE_OBJECT] = object;
        listing[*count][DOGMA_LINE_ATTRIBUTE] = DOGMA_UNSIGNED(attribute);
        listing[*count][DOGMA_LINE_LOW] = (uint32_t)bits;
        listing[*count][DOGMA_LINE_HIGH] = (uint32_t)(bits >> 32);
    }
    if (file)
        fclose(file);
    return file != NULL;
}

int main(int argument_count, char **words)
{
    size_t count;
    if (argument_count != 3 || !read_listing(words[2], &count)) {
        fprintf(stderr, "usage: %s SHEET LISTING\n", words[0]);
        return 2;
    }
    const size_t length = read_sheet(words[1]);
    const struct dogma_answer answer = dogma_check(
        states, collected, ROOM, collected_values, ROOM, rows, ROOM, bases, ROOM, values, ROOM, work, ROOM,
        entries, ROOM, entry_values, ROOM, plain, ROOM, sheet, length, (const dogma_line *)listing, count);
    if (answer.number == DOGMA_DONE)
        printf("accepted\n");
    else if (answer.number == DOGMA_LOOP)
        printf("an attribute of object %" PRIu64 " leads back to itself\n", answer.place);
    else if (answer.number == DOGMA_LISTING)
        printf("line %" PRIu64 " is %s\n", answer.place, answer.place == count ? "missing" : "wrong");
    else
        printf("refused %" PRIu64 " %" PRIu64 "\n", answer.number, answer.place);
    return answer.number != DOGMA_DONE;
}
