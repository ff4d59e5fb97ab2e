/* Holds a fit against an organiser's rules, and says in words what is broken: rules RULES SHEET, or rules RULES BOOK FIT.
 * RULES is text, a rule to a line, which ascend as dogma.h says; # begins a remark:
 *     points TYPE POINTS | most GROUP PIECES | forbidden GROUP | total POINTS
 */
#include <inttypes.h>
#include <stdio.h>
#include <string.h>

#include "dogma.h"

enum { LONGEST = 1 << 20, MOST_LINES = 10000 };

static uint8_t first[LONGEST], second[LONGEST];
static dogma_rule lines[MOST_LINES];

static size_t read_file(const char *name, uint8_t *bytes)
{
    FILE *file = fopen(name, "rb");
    if (!file)
        return 0; /* no bytes: refused as a file without a header */
    const size_t length = fread(bytes, 1, LONGEST, file);
    fclose(file);
    return length;
}

/* One rule of the text; 0 where it is none. */
static int read_rule(const char *text, dogma_rule line)
{
    int32_t id = 0;
    uint32_t number = 0;
    line[DOGMA_RULE_KIND] = DOGMA_RULE_POINTS;
    int good = sscanf(text, " points %" SCNd32 " %" SCNu32, &id, &number) == 2;
    if (!good && (good = sscanf(text, " most %" SCNd32 " %" SCNu32, &id, &number) == 2))
        line[DOGMA_RULE_KIND] = DOGMA_RULE_MOST;
    if (!good && (good = sscanf(text, " forbidden %" SCNd32, &id) == 1))
        line[DOGMA_RULE_KIND] = DOGMA_RULE_FORBIDDEN;
    if (!good && (good = sscanf(text, " total %" SCNu32, &number) == 1))
        line[DOGMA_RULE_KIND] = DOGMA_RULE_TOTAL;
    line[DOGMA_RULE_ID] = (uint32_t)id;
    line[DOGMA_RULE_NUMBER] = number;
    return good;
}

/* The rules of a file; none, with a word about it, where a line is no rule. */
static int read_rules(const char *name, size_t *count)
{
    FILE *file = fopen(name, "r");
    char text[256];
    for (*count = 0; file && fgets(text, sizeof text, file);) {
        text[strcspn(text, "#\n")] = 0;
        if (text[strspn(text, " \t\r")] == 0)
            continue;
        if (*count == MOST_LINES || !read_rule(text, lines[*count])) {
            fprintf(stderr, "no rule: %s\n", text);
            return 0;
        }
        *count += 1;
    }
    if (file)
        fclose(file);
    return file != NULL;
}

static void print_broken(const dogma_rule line, uint64_t count)
{
    const int32_t group = DOGMA_SIGNED(line[DOGMA_RULE_ID]);
    if (line[DOGMA_RULE_KIND] == DOGMA_RULE_TOTAL)
        printf("the fit costs %" PRIu64 " points, and %" PRIu32 " are allowed\n", count, line[DOGMA_RULE_NUMBER]);
    else if (line[DOGMA_RULE_KIND] == DOGMA_RULE_FORBIDDEN)
        printf("group %" PRId32 " is forbidden, and the fit has %" PRIu64 " of it\n", group, count);
    else
        printf("the fit has %" PRIu64 " of group %" PRId32 ", and %" PRIu32 " are allowed\n", count, group, line[DOGMA_RULE_NUMBER]);
}

int main(int count, char **words)
{
    size_t line_count;
    if ((count != 3 && count != 4) || !read_rules(words[1], &line_count)) {
        fprintf(stderr, "usage: %s RULES SHEET | %s RULES BOOK FIT\n", words[0], words[0]);
        return 2;
    }
    const size_t length = read_file(words[2], first);
    const struct dogma_checked checked = count == 3
        ? dogma_check_rules_checked((const dogma_rule *)lines, line_count, first, length)
        : dogma_check_rules_files_checked((const dogma_rule *)lines, line_count, first, length, second, read_file(words[3], second));
    if (checked.number != DOGMA_DONE) {
        printf("refused %" PRIu64 " %" PRIu64 "\n", checked.number, checked.place);
        return 1;
    }
    if (checked.allowed) {
        printf("allowed\n");
        return 0;
    }
    printf("rule %" PRIu64 " is broken: ", checked.line + 1);
    print_broken(lines[checked.line], checked.count);
    return 1;
}
