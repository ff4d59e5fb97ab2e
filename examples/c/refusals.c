/* Every number that the library can give, with its place, in the order of cases/refusals.txt: refusals CASES, the folder. */
#include <inttypes.h>
#include <stdio.h>
#include <stdlib.h>
#include <string.h>

#include "dogma.h"

enum { ROOM = 4096, LONGEST = 1 << 20, HALL = 8 };

static dogma_state states[DOGMA_OBJECTS], pool_states[DOGMA_PILOTS][DOGMA_OBJECTS];
static dogma_collected collected[ROOM];
static double collected_values[ROOM];
static dogma_row rows[ROOM];
static double bases[ROOM], values[ROOM];
static dogma_entry entries[ROOM];
static double entry_values[ROOM];
static dogma_plain plain[ROOM];
static dogma_source sources[ROOM];
static dogma_source_value source_values[ROOM];
static dogma_stretch_of_list stretches[DOGMA_PILOTS][DOGMA_LISTS];

/* a file of the cases; it is read into memory that is kept */
struct file { uint8_t *bytes; size_t length; };
static const char *cases;

static struct file read_case(const char *name)
{
    char path[1024];
    struct file read = { malloc(LONGEST), 0 };
    snprintf(path, sizeof path, "%s/%s", cases, name);
    FILE *file = fopen(path, "rb");
    if (!file || !read.bytes) {
        fprintf(stderr, "%s cannot be read\n", path);
        exit(2);
    }
    read.length = fread(read.bytes, 1, LONGEST, file);
    fclose(file);
    return read;
}

static void say(uint64_t number, uint64_t place)
{
    printf("%" PRIu64 " %" PRIu64 "\n", number, place);
}

static void calculate(struct file sheet)
{
    const struct dogma_answer answer = dogma_calculate_checked(
        DOGMA_LEND(states, collected, collected_values, rows, bases, values, entries, entry_values, plain, sources, source_values),
        sheet.bytes, sheet.length);
    say(answer.number, answer.place);
}

static uint32_t number_at(struct file sheet, size_t at)
{
    uint32_t number;
    memcpy(&number, sheet.bytes + at, sizeof number);
    return number;
}

/* A ship and a char with records of most tables, and one of them bad: from a byte of a table on something else is put. */
static void calculate_bad(int table, size_t at, const void *put, size_t length)
{
    static const dogma_buff_collection collections[] = { { 1, 7, 0, 1 }, { 2, 7, 0, 1 } };
    static const dogma_ask asks[] = { { 0, 37 } };
    static const uint32_t buffs[] = { 1 };
    static const double buff_values[] = { 5.0 };
    static uint8_t bytes[LONGEST];
    static const dogma_attribute attributes[] = { { 20 }, { 37 } };
    static const double defaults[] = { 0.0, 0.0 };
    static const dogma_effect effects[] = { { 1, 1, 0, 0, 0, 1 } };
    static const dogma_modifier modifiers[] = { { 4, 1, 7, 20, 37, 0, 0 } };
    static const dogma_type_effect type_effects[] = { { 9, 1, 0 } };
    static const dogma_object objects[] = { { DOGMA_KIND_SHIP }, { DOGMA_KIND_CHAR } };
    const struct dogma_tables tables = {
        .header = { 7, 0, 0, 2, 0 },
        .attributes = attributes, .attribute_count = 2, .defaults = defaults, .default_count = 2, .effects = effects, .effect_count = 1,
        .modifiers = modifiers, .modifier_count = 1, .type_effects = type_effects, .type_effect_count = 1,
        .buff_collections = collections, .buff_collection_count = 2, .objects = objects, .object_count = 2,
        .buffs = buffs, .buff_count = 1, .buff_values = buff_values, .buff_value_count = 1, .asks = asks, .ask_count = 1,
    };
    const struct file sheet = { bytes, dogma_write_sheet_checked(bytes, dogma_sheet_length(&tables), &tables).length };
    memcpy(bytes + number_at(sheet, 8 * (size_t)(table - 1) + 4) + at, put, length);
    calculate(sheet);
}

static void calculate_pilot(uint32_t pilot, struct file book, struct file fit)
{
    const struct dogma_answer answer = dogma_calculate_pilot_checked(
        DOGMA_LEND_POOL(
            pool_states, collected, collected_values, rows, bases, values, entries, entry_values, plain, sources, source_values, stretches),
        book.bytes, book.length, fit.bytes, fit.length, pilot);
    say(answer.number, answer.place);
}

static struct file without_first(struct file file)
{
    return (struct file) { file.bytes + 1, file.length - 1 };
}

static void pilots(struct file book, struct file fit)
{
    for (int list = 0; list < DOGMA_LISTS; list++) {
        stretches[0][list][DOGMA_STRETCH_LENGTH] = 8;
        stretches[1][list][DOGMA_STRETCH_FIRST] = 8;
        stretches[1][list][DOGMA_STRETCH_LENGTH] = 1;
    }
    calculate_pilot(0, without_first(book), fit);
    calculate_pilot(0, book, without_first(fit));
    calculate_pilot(0, book, read_case("refused-1-26.fit"));
    /* pilot 1 has room for the collected effects, and not for all rows */
    stretches[1][DOGMA_LIST_COLLECTED - 1][DOGMA_STRETCH_LENGTH] = 8;
    calculate_pilot(1, book, fit);
    calculate_pilot(2, book, fit);
    calculate_pilot(16, book, fit);
    stretches[1][DOGMA_LIST_SOURCES - 1][DOGMA_STRETCH_FIRST] = 7;
    stretches[1][DOGMA_LIST_SOURCES - 1][DOGMA_STRETCH_LENGTH] = 2;
    calculate_pilot(0, book, fit);
}

static void come_and_go(void)
{
    static dogma_stretch_of_list none[DOGMA_PILOTS][DOGMA_LISTS];
    static dogma_plain few[HALL];
    static struct dogma_stretch free[DOGMA_FREE];
    struct dogma_hall hall =
        DOGMA_HALL(pool_states, collected, collected_values, rows, bases, values, entries, entry_values, few, sources, source_values, none, free);
    hall.count = DOGMA_START(free, HALL);
    dogma_admit_checked(&hall, 3, 5);
    const uint32_t wanted[][2] = { { 4, 4 }, { 3, 1 }, { 16, 1 }, { 4, 0 } };
    for (int i = 0; i < 4; i++) {
        const struct dogma_seat seat = dogma_admit_checked(&hall, wanted[i][0], wanted[i][1]);
        say(seat.number, seat.place);
    }
    const struct dogma_seat absent = dogma_leave_checked(&hall, 4), above = dogma_leave_checked(&hall, 16);
    say(absent.number, absent.place);
    say(above.number, above.place);
    /* nobody has the rows that are no longer free */
    hall.count = 0;
    const struct dogma_seat lost = dogma_admit_checked(&hall, 0, 1);
    say(lost.number, lost.place);
}

static void write_tables(void)
{
    static const dogma_object objects[] = { { DOGMA_KIND_SHIP }, { DOGMA_KIND_CHAR } };
    static uint8_t bytes[LONGEST];
    struct dogma_tables tables = { .header = { [DOGMA_HEADER_DEPTH] = 1 }, .objects = objects, .object_count = 2 };
    const struct dogma_written short_one = dogma_write_sheet_checked(bytes, 99, &tables);
    say(short_one.number, short_one.place);
    tables.header[DOGMA_HEADER_DEPTH] = 0;
    const struct dogma_written shallow = dogma_write_fit_checked(bytes, sizeof bytes, &tables);
    say(shallow.number, shallow.place);
}

/* No line of a sheet with a loop; two lines of three, and the first of them twice. */
static void listings(struct file sheet)
{
    static dogma_work work[ROOM];
    const struct file loop = read_case("loop-walked.sheet"), sheets[] = { loop, sheet, sheet };
    const size_t counts[] = { 0, 2, 2 };
    dogma_line lines[2] = { { 0, 37, 0x50f2bada, 0x407ae5e3 }, { 2, 20, 0, 0x40490000 } };
    for (int i = 0; i < 3; i++) {
        if (i == 2)
            memcpy(lines[1], lines[0], sizeof lines[0]);
        const struct dogma_answer answer = dogma_check(
            states, collected, ROOM, collected_values, ROOM, rows, ROOM, bases, ROOM, values, ROOM, work, ROOM, entries, ROOM,
            entry_values, ROOM, plain, ROOM, sheets[i].bytes, sheets[i].length, (const dogma_line *)lines, counts[i]);
        say(answer.number, answer.place);
    }
}

static void rules_and_texts(struct file sheet, struct file book, struct file fit)
{
    static const dogma_rule totals[] = { { DOGMA_RULE_TOTAL, 0, 1 }, { DOGMA_RULE_TOTAL, 0, 1 } };
    static const dogma_label labels[2][2] = { { { 20, 0, 1 }, { 20, 1, 1 } }, { { 20, 0, 65 } } };
    static uint8_t text[LONGEST], letters[65];
    const struct dogma_checked line = dogma_check_rules_checked(totals, 2, sheet.bytes, sheet.length);
    const struct dogma_checked files = dogma_check_rules_files_checked(totals, 2, book.bytes, book.length, fit.bytes + 1, fit.length - 1);
    say(line.number, line.place);
    say(files.number, files.place);
    memset(letters, 'x', sizeof letters);
    const size_t counts[] = { 2, 1, 0 }, lengths[] = { sizeof text, sizeof text, 9 };
    for (int i = 0; i < 3; i++) {
        const struct dogma_exported exported = dogma_export_checked(
            text, lengths[i],
            DOGMA_LEND(states, collected, collected_values, rows, bases, values, entries, entry_values, plain, sources, source_values),
            labels[i % 2], counts[i], letters, sizeof letters, sheet.bytes, sheet.length);
        say(exported.number, exported.place);
    }
}

int main(int count, char **words)
{
    if (count != 2) {
        fprintf(stderr, "usage: %s CASES\n", words[0]);
        return 2;
    }
    cases = words[1];
    static const char *const names[] = {
        "refused-1", "refused-1-6", "refused-1-7", "refused-2", "refused-3", "refused-4", "refused-5", "refused-6", "refused-7",
        "divided-by-0", "L-depth-1" };
    for (size_t i = 0; i < sizeof names / sizeof names[0]; i++) {
        char name[64];
        snprintf(name, sizeof name, "%s.sheet", names[i]);
        calculate(read_case(name));
    }
    const struct file sheet = read_case("L.sheet"), book = read_case("L.book"), fit = read_case("L.fit");
    const double infinite = 1.0 / 0.0;
    const uint32_t two = 2, nine = 9;
    calculate_bad(1, 8, &infinite, sizeof infinite);
    calculate_bad(2, 20, &nine, sizeof nine);
    calculate_bad(4, 8, &two, sizeof two);
    calculate_bad(5, 0, &two, sizeof two);
    calculate_bad(9, 4, &infinite, sizeof infinite);
    calculate_bad(10, 0, &nine, sizeof nine);
    pilots(book, fit);
    come_and_go();
    write_tables();
    listings(sheet);
    rules_and_texts(sheet, book, fit);
    return 0;
}
