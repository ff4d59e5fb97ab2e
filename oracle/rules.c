/* Holds one fit after another against an organiser's lines.
 *
 * Standard input, all numbers 32 bits, little-endian: for each call how many lines, and how many files (1 a sheet, 2 a book and a fit);
 * the length of each file; the lines; the files. Standard output: for each call the five numbers of the answer, 64 bits each, and 1
 * where the lines or a file were changed, else 0, in 64 bits.
 */
#include "bytes.h"
#include "dogma.h"

static void call(uint32_t line_count)
{
    uint32_t files, lengths[2] = { 0, 0 };
    get(&files, sizeof files);
    if (files < 1 || files > 2)
        stop("rules: neither a sheet nor two files\n");
    get(lengths, 4 * files);
    uint8_t *lines = taken(sizeof(dogma_rule) * line_count), *first = taken(lengths[0]), *second = taken(lengths[1]);
    const dogma_rule *rules = (const dogma_rule *)lines;
    const struct dogma_checked checked = files == 1
        ? dogma_check_rules(rules, line_count, first, lengths[0])
        : dogma_check_rules_files(rules, line_count, first, lengths[0], second, lengths[1]);
    const uint64_t numbers[6] = {
        checked.number, checked.place, checked.allowed, checked.line, checked.count,
        changed(lines, sizeof(dogma_rule) * line_count) | changed(first, lengths[0]) | changed(second, lengths[1]),
    };
    give(numbers, sizeof numbers);
    free(lines);
    free(first);
    free(second);
}

int main(void)
{
    uint32_t line_count;
    while (take(&line_count, sizeof line_count) == sizeof line_count)
        call(line_count);
    flush();
    return 0;
}
