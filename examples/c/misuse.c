/* Wrong lengths and pointers: each is found. With WRONG 1 or 2 it must not compile: a pointer is no array, one pilot's states no pool's. */
#include <stdio.h>

#include "dogma.h"

static dogma_state states[DOGMA_OBJECTS];
static dogma_collected collected[2];
static double collected_values[2], bases[3], values[4], entry_values[5];
static dogma_row rows[3];
static dogma_entry entries[5];
static dogma_plain plain[1];
static dogma_source sources[6];
static dogma_source_value source_values[6];
static const uint8_t sheet[100];
static dogma_state pool_states[DOGMA_PILOTS][DOGMA_OBJECTS];
static dogma_stretch_of_list stretches[DOGMA_PILOTS][DOGMA_LISTS];

static int wrong;

static void expect(const char *what, struct dogma_answer answer, uint64_t number, uint64_t place)
{
    if (answer.number != number || answer.place != place) {
        printf("%s: %d %d\n", what, (int)answer.number, (int)answer.place);
        wrong = 1;
    }
}

/* The same of a pool: three bytes are neither book nor fit, and pilot 0 has a stretch of one row. */
static void expect_pools(void)
{
#if WRONG == 2
    (void)DOGMA_LEND_POOL(states, collected, collected_values, rows, bases, values, entries, entry_values, plain, sources, source_values, stretches);
#endif
    stretches[0][DOGMA_LIST_PLAIN - 1][DOGMA_STRETCH_LENGTH] = 1;
    const struct dogma_pool right = *DOGMA_LEND_POOL(
        pool_states, collected, collected_values, rows, bases, values, entries, entry_values, plain, sources, source_values, stretches);
    struct dogma_pool pool = right;
    expect("a pool", dogma_calculate_pilot_checked(&pool, sheet, 3, sheet, 3, 0), DOGMA_SHAPE, 0);
    expect("no stretch", dogma_calculate_pilot_checked(&pool, sheet, 3, sheet, 3, 1), DOGMA_POOL, 1);
    expect("a pilot above 15", dogma_calculate_pilot_checked(&pool, sheet, 3, sheet, 3, 16), DOGMA_POOL, 16);
    expect("a null book", dogma_calculate_pilot_checked(&pool, NULL, 0, sheet, 3, 0), DOGMA_MISUSED, DOGMA_ARGUMENT_BOOK);
    expect("a null fit", dogma_calculate_pilot_checked(&pool, sheet, 3, NULL, 0, 0), DOGMA_MISUSED, DOGMA_ARGUMENT_FIT);
    expect("a fit that is written", dogma_calculate_pilot_checked(&pool, sheet, 3, (const uint8_t *)plain, 3, 0), DOGMA_MISUSED, DOGMA_ARGUMENT_FIT);
    pool.lent.state_count = DOGMA_OBJECTS;
    expect("states of one pilot", dogma_calculate_pilot_checked(&pool, sheet, 3, sheet, 3, 0), DOGMA_MISUSED, DOGMA_ARGUMENT_STATES);
    pool = right;
    pool.stretch_count = 1;
    expect("stretches of one pilot", dogma_calculate_pilot_checked(&pool, sheet, 3, sheet, 3, 0), DOGMA_MISUSED, DOGMA_ARGUMENT_STRETCHES);
    pool = right;
    pool.stretches = NULL;
    expect("null stretches", dogma_calculate_pilot_checked(&pool, sheet, 3, sheet, 3, 0), DOGMA_MISUSED, DOGMA_ARGUMENT_STRETCHES);
    pool = right;
    pool.lent.values = bases + 1;
    expect("columns that overlap", dogma_calculate_pilot_checked(&pool, sheet, 3, sheet, 3, 0), DOGMA_MISUSED, DOGMA_ARGUMENT_VALUES);
}

/* the other answers begin with number and place too */
#define EXPECT_OF(name, type) \
    static void name(const char *what, struct type said, uint64_t number, uint64_t place) \
    { \
        const struct dogma_answer answer = { said.number, said.place, 0, 0, 0, 0, 0 }; \
        expect(what, answer, number, place); \
    }
EXPECT_OF(expect_written, dogma_written)
EXPECT_OF(expect_seat, dogma_seat)
EXPECT_OF(expect_checked, dogma_checked)
EXPECT_OF(expect_text, dogma_exported)

/* The same of the writers: a ship and a char in 236 bytes. */
static void expect_writers(void)
{
    static const dogma_object two[] = { { 0 }, { [DOGMA_OBJECT_KIND] = DOGMA_KIND_CHAR } };
    static uint8_t bytes[DOGMA_SHEET_LENGTH(0, 0, 0, 0, 0, 2, 0, 0, 0, 0)];
    const struct dogma_tables right = { .header = { [DOGMA_HEADER_DEPTH] = 1 }, .objects = two, .object_count = 2 };
    struct dogma_tables tables = right;
    expect_written("tables", dogma_write_sheet_checked(bytes, sizeof bytes, &tables), DOGMA_DONE, 0);
    expect_written("a byte too few", dogma_write_sheet_checked(bytes, sizeof bytes - 1, &tables), DOGMA_ROOM, DOGMA_LIST_SHEET);
    expect_written("a book of nothing", dogma_write_book_checked(bytes, 52, &tables), DOGMA_DONE, 0);
    expect_written("a fit", dogma_write_fit_checked(bytes, dogma_fit_length(&tables), &tables), DOGMA_DONE, 0);
    expect_written("no bytes", dogma_write_sheet_checked(NULL, 0, &tables), DOGMA_MISUSED, DOGMA_ARGUMENT_BYTES);
    tables.buffs = NULL, tables.buff_count = 1;
    expect_written("null buffs", dogma_write_sheet_checked(bytes, sizeof bytes, &tables), DOGMA_MISUSED, DOGMA_ARGUMENT_BUFFS);
    expect_written("a book has no buffs", dogma_write_book_checked(bytes, 52, &tables), DOGMA_DONE, 0);
    tables = right;
    tables.base_values = (const double *)(const void *)((const uint8_t *)values + 4), tables.base_value_count = 1;
    expect_written("unaligned values", dogma_write_sheet_checked(bytes, sizeof bytes, &tables), DOGMA_MISUSED, DOGMA_ARGUMENT_BASE_VALUES);
    tables = right;
    tables.ids = (const uint32_t *)(const void *)bytes, tables.id_count = 1;
    expect_written("ids that are written", dogma_write_fit_checked(bytes, sizeof bytes, &tables), DOGMA_MISUSED, DOGMA_ARGUMENT_IDS);
}

/* The same of a hall: eight rows would do, the shortest column has one. */
static void expect_halls(void)
{
    static dogma_stretch_of_list none[DOGMA_PILOTS][DOGMA_LISTS];
    static struct dogma_stretch free[DOGMA_FREE];
    const struct dogma_hall right =
        DOGMA_HALL(pool_states, collected, collected_values, rows, bases, values, entries, entry_values, plain, sources, source_values, none, free);
    struct dogma_hall hall = right;
    hall.count = DOGMA_START(free, dogma_pool_rows(&hall.lent));
    expect_seat("a pilot", dogma_admit_checked(&hall, 0, 1), DOGMA_DONE, 0);
    expect_seat("one that is not in", dogma_leave_checked(&hall, 1), DOGMA_PILOT, 1);
    expect_seat("the pilot leaves", dogma_leave_checked(&hall, 0), DOGMA_DONE, 0);
    hall.stretch_count = 15;
    expect_seat("stretches of 15 pilots", dogma_admit_checked(&hall, 0, 1), DOGMA_MISUSED, DOGMA_ARGUMENT_STRETCHES);
    hall = right;
    hall.free = NULL;
    expect_seat("no free ones", dogma_admit_checked(&hall, 0, 1), DOGMA_MISUSED, DOGMA_ARGUMENT_FREE);
    hall = right;
    hall.free_room = DOGMA_FREE - 1;
    expect_seat("a free place too few", dogma_admit_checked(&hall, 0, 1), DOGMA_TABLE, 0);
    hall = right;
    hall.free = (struct dogma_stretch *)(void *)none;
    expect_seat("free ones that overlap", dogma_leave_checked(&hall, 0), DOGMA_MISUSED, DOGMA_ARGUMENT_FREE);
    hall = right;
    hall.lent.bases = values;
    expect_seat("columns that overlap", dogma_leave_checked(&hall, 0), DOGMA_MISUSED, DOGMA_ARGUMENT_VALUES);
}

/* The same of rules, of which nothing is written, and of texts. */
static void expect_rules_and_texts(void)
{
    static const dogma_rule lines[] = { { DOGMA_RULE_TOTAL, 0, 1 } };
    static const dogma_label labels[] = { { 1, 0, 1 } };
    static const uint8_t letters[] = "a";
    static uint8_t text[60];
    const struct dogma_lent *lent =
        DOGMA_LEND(states, collected, collected_values, rows, bases, values, entries, entry_values, plain, sources, source_values);
    expect_checked("rules", dogma_check_rules_checked(lines, 1, sheet, 3), DOGMA_SHAPE, 0);
    expect_checked("null lines", dogma_check_rules_checked(NULL, 0, sheet, 3), DOGMA_MISUSED, DOGMA_ARGUMENT_LINES);
    expect_checked("a null sheet of rules", dogma_check_rules_checked(lines, 1, NULL, 0), DOGMA_MISUSED, DOGMA_ARGUMENT_RULES_SHEET);
    expect_checked("a null fit of rules", dogma_check_rules_files_checked(lines, 1, sheet, 3, NULL, 0), DOGMA_MISUSED, DOGMA_ARGUMENT_RULES_FIT);
    expect_checked(
        "lines out of line", dogma_check_rules_checked((const dogma_rule *)(const void *)((const char *)lines + 1), 0, sheet, 3),
        DOGMA_MISUSED, DOGMA_ARGUMENT_LINES);
    expect_text("a text", dogma_export_checked(text, sizeof text, lent, labels, 1, letters, 1, sheet, 3), DOGMA_SHAPE, 0);
    expect_text("a null text", dogma_export_checked(NULL, 0, lent, labels, 1, letters, 1, sheet, 3), DOGMA_MISUSED, DOGMA_ARGUMENT_TEXT);
    expect_text("null labels", dogma_export_checked(text, 9, lent, NULL, 0, letters, 1, sheet, 3), DOGMA_MISUSED, DOGMA_ARGUMENT_LABELS);
    expect_text("null letters", dogma_export_checked(text, 9, lent, labels, 1, NULL, 1, sheet, 3), DOGMA_MISUSED, DOGMA_ARGUMENT_LABEL_BYTES);
    expect_text("a text over a list", dogma_export_checked((uint8_t *)plain, 1, lent, labels, 1, letters, 1, sheet, 3), DOGMA_MISUSED, DOGMA_ARGUMENT_TEXT);
    expect_text("a text over its letters", dogma_export_checked(text, 9, lent, labels, 1, text + 8, 1, sheet, 3), DOGMA_MISUSED, DOGMA_ARGUMENT_TEXT);
    expect_text(
        "letters over a list", dogma_export_checked(text, 9, lent, labels, 1, (const uint8_t *)rows, 1, sheet, 3), DOGMA_MISUSED, DOGMA_ARGUMENT_LABEL_BYTES);
}

int main(void)
{
    expect_writers();
    expect_halls();
    expect_rules_and_texts();
#if WRONG == 1
    dogma_row *pointer = rows;
    (void)DOGMA_LEND(states, collected, collected_values, pointer, bases, values, entries, entry_values, plain, sources, source_values);
#endif
    const struct dogma_lent right =
        *DOGMA_LEND(states, collected, collected_values, rows, bases, values, entries, entry_values, plain, sources, source_values);
    struct dogma_lent lent = right;
    expect("right", dogma_calculate_checked(&lent, sheet, 3), DOGMA_SHAPE, 0);
    expect("an empty sheet", dogma_calculate_checked(&lent, sheet, 0), DOGMA_SHAPE, 0);
    expect("a null sheet", dogma_calculate_checked(&lent, NULL, 0), DOGMA_MISUSED, DOGMA_ARGUMENT_SHEET);
    lent.state_count = DOGMA_OBJECTS - 1;
    expect("too few states", dogma_calculate_checked(&lent, sheet, 3), DOGMA_MISUSED, DOGMA_ARGUMENT_STATES);
    lent = right;
    lent.plain = NULL;
    lent.plain_count = 0;
    expect("a null list", dogma_calculate_checked(&lent, sheet, 3), DOGMA_MISUSED, DOGMA_ARGUMENT_PLAIN);
    lent = right;
    lent.values = bases + 1;
    expect("lists that overlap", dogma_calculate_checked(&lent, sheet, 3), DOGMA_MISUSED, DOGMA_ARGUMENT_VALUES);
    lent = right;
    lent.row_count = SIZE_MAX / 8;
    expect("a length that wraps", dogma_calculate_checked(&lent, sheet, 3), DOGMA_MISUSED, DOGMA_ARGUMENT_ROWS);
    lent = right;
    lent.bases = (double *)(void *)((char *)bases + 4);
    lent.base_count = 2;
    expect("a list out of line", dogma_calculate_checked(&lent, sheet, 3), DOGMA_MISUSED, DOGMA_ARGUMENT_BASES);
    expect_pools();
    puts(wrong ? "misuse: some were not found" : "misuse: every one is found");
    return wrong;
}
