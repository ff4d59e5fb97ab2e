/* Writes a sheet's rows as comma-separated text, for a spreadsheet: export SHEET LABELS CSV.
 * LABELS is text, a label to a line: an attribute's id, a space, the label. Ids ascend.
 */
#include <inttypes.h>
#include <stdio.h>
#include <stdlib.h>
#include <string.h>

#include "dogma.h"

enum { LONGEST = 1 << 20, ROWS = 8192, LABELS = 4096, RECORD = 172 };

static uint8_t sheet[LONGEST], label_bytes[LONGEST], text[30 + RECORD * ROWS];
static dogma_state states[DOGMA_OBJECTS];
static dogma_collected collected[ROWS];
static dogma_row rows[ROWS];
static dogma_entry entries[ROWS];
static dogma_plain plain[ROWS];
static dogma_source sources[ROWS];
static dogma_source_value source_values[ROWS];
static double collected_values[ROWS], bases[ROWS], values[ROWS], entry_values[ROWS];
static dogma_label labels[LABELS];

static int read_file(const char *name, uint8_t *bytes, size_t *length)
{
    FILE *file = fopen(name, "rb");
    if (!file)
        return 0;
    *length = fread(bytes, 1, LONGEST, file);
    fclose(file);
    return 1;
}

/* The labels stand where they were read: a row says where. The number of the first bad line, from 1, or 0. */
static size_t read_labels(size_t length, size_t *count)
{
    *count = 0;
    for (size_t at = 0; at < length; *count += 1) {
        const uint8_t *end = memchr(label_bytes + at, '\n', length - at);
        const size_t stop = end ? (size_t)(end - label_bytes) : length;
        int32_t id;
        int used = 0;
        char line[16] = { 0 };
        memcpy(line, label_bytes + at, stop - at < sizeof line - 1 ? stop - at : sizeof line - 1);
        if (*count == LABELS || sscanf(line, "%" SCNd32 "%n", &id, &used) != 1 || at + (size_t)used >= stop || label_bytes[at + (size_t)used] != ' ')
            return *count + 1;
        const size_t first = at + (size_t)used + 1, last = stop > first && label_bytes[stop - 1] == '\r' ? stop - 1 : stop;
        labels[*count][DOGMA_LABEL_ID] = (uint32_t)id;
        labels[*count][DOGMA_LABEL_FIRST] = (uint32_t)first;
        labels[*count][DOGMA_LABEL_COUNT] = (uint32_t)(last - first);
        at = stop + 1;
    }
    return 0;
}

int main(int count, char **words)
{
    size_t sheet_length, label_length, label_count;
    if (count != 4) {
        fprintf(stderr, "usage: %s SHEET LABELS CSV\n", words[0]);
        return 2;
    }
    if (!read_file(words[1], sheet, &sheet_length) || !read_file(words[2], label_bytes, &label_length)) {
        fprintf(stderr, "a file cannot be read\n");
        return 2;
    }
    const size_t bad = read_labels(label_length, &label_count);
    if (bad) {
        fprintf(stderr, "%s, line %zu: not an id, a space and a label\n", words[2], bad);
        return 2;
    }
    const struct dogma_exported e = dogma_export_checked(
        text, sizeof text,
        DOGMA_LEND(states, collected, collected_values, rows, bases, values, entries, entry_values, plain, sources, source_values),
        (const dogma_label *)labels, label_count, label_bytes, label_length, sheet, sheet_length);
    if (e.number == DOGMA_LABEL)
        fprintf(stderr, "%s, line %" PRIu64 ": a label is over 64 bytes, has a byte that is not printable, or its id does not ascend\n", words[2], e.place + 1);
    else if (e.number != DOGMA_DONE)
        fprintf(stderr, "%s: refused %" PRIu64 " %" PRIu64 "\n", words[1], e.number, e.place);
    if (e.number != DOGMA_DONE)
        return 1;
    FILE *file = fopen(words[3], "wb");
    if (!file || fwrite(text, 1, e.length, file) != e.length || fclose(file) != 0) {
        fprintf(stderr, "%s cannot be written\n", words[3]);
        return 2;
    }
    return 0;
}
