/* A hull and two modules, from nothing to figures: build [SHEET BOOK FIT] writes the bytes too. */
#include <inttypes.h>
#include <stdio.h>

#include "dogma.h"
#include "value.h"

/* the attributes of the example */
enum { SPEED_FACTOR = 20, MAX_VELOCITY = 37 };
enum { BOOST = 1, HULL = 587, OVERDRIVE = 9, MODULES = 7, SUBSYSTEMS = 32, STRUCTURE_MODULES = 66, ROOM = 64 };

static const dogma_attribute attributes[] = {
    { [DOGMA_ATTRIBUTE_ID] = SPEED_FACTOR, [DOGMA_ATTRIBUTE_FLAGS] = DOGMA_HIGH_IS_GOOD },
    { [DOGMA_ATTRIBUTE_ID] = MAX_VELOCITY, [DOGMA_ATTRIBUTE_FLAGS] = DOGMA_HIGH_IS_GOOD },
};
static const double defaults[] = { 0.0, 0.0 };

static const dogma_effect effects[] = {
    { [DOGMA_EFFECT_ID] = BOOST, [DOGMA_EFFECT_CATEGORY] = DOGMA_CATEGORY_ONLINE, [DOGMA_EFFECT_MODIFIER_COUNT] = 1 },
};
static const dogma_modifier modifiers[] = {
    {
        [DOGMA_MODIFIER_FUNC] = DOGMA_FUNC_ITEM,
        [DOGMA_MODIFIER_DOMAIN] = DOGMA_DOMAIN_SHIP,
        [DOGMA_MODIFIER_OPERATION] = DOGMA_POST_PERCENT,
        [DOGMA_MODIFIER_MODIFYING] = SPEED_FACTOR,
        [DOGMA_MODIFIER_MODIFIED] = MAX_VELOCITY,
    },
};
static const dogma_type_effect type_effects[] = {
    { [DOGMA_TYPE_EFFECT_TYPE] = OVERDRIVE, [DOGMA_TYPE_EFFECT_EFFECT] = BOOST },
};

#define AN_OVERDRIVE \
    { \
        [DOGMA_OBJECT_KIND] = DOGMA_KIND_ITEM, [DOGMA_OBJECT_TYPE] = OVERDRIVE, [DOGMA_OBJECT_CATEGORY] = MODULES, \
        [DOGMA_OBJECT_SLOT] = DOGMA_SLOT_LOW, [DOGMA_OBJECT_QUANTITY] = 1, [DOGMA_OBJECT_STATE] = DOGMA_STATE_ONLINE, \
        [DOGMA_OBJECT_FIRST_BASE] = 1, [DOGMA_OBJECT_BASE_COUNT] = 1, \
    }
static const dogma_object objects[] = {
    {
        [DOGMA_OBJECT_KIND] = DOGMA_KIND_SHIP, [DOGMA_OBJECT_TYPE] = HULL, [DOGMA_OBJECT_QUANTITY] = 1,
        [DOGMA_OBJECT_STATE] = DOGMA_STATE_ACTIVE, [DOGMA_OBJECT_MAX_STATE] = DOGMA_STATE_ACTIVE,
        [DOGMA_OBJECT_FIRST_BASE] = 0, [DOGMA_OBJECT_BASE_COUNT] = 1,
    },
    {
        [DOGMA_OBJECT_KIND] = DOGMA_KIND_CHAR, [DOGMA_OBJECT_QUANTITY] = 1,
        [DOGMA_OBJECT_STATE] = DOGMA_STATE_ACTIVE, [DOGMA_OBJECT_MAX_STATE] = DOGMA_STATE_ACTIVE,
    },
    AN_OVERDRIVE,
    AN_OVERDRIVE,
};
static const uint32_t base_attributes[] = { MAX_VELOCITY, SPEED_FACTOR };
static const double base_values[] = { 200.0, 50.0 };

#define COUNT(array) (sizeof(array) / sizeof((array)[0]))

static const struct dogma_tables tables = {
    .header = {
        [DOGMA_HEADER_CATEGORY_MODULE] = MODULES, [DOGMA_HEADER_CATEGORY_SUBSYSTEM] = SUBSYSTEMS,
        [DOGMA_HEADER_CATEGORY_STRUCTURE_MODULE] = STRUCTURE_MODULES, [DOGMA_HEADER_DEPTH] = 256,
    },
    .attributes = attributes, .attribute_count = COUNT(attributes),
    .defaults = defaults, .default_count = COUNT(defaults),
    .effects = effects, .effect_count = COUNT(effects),
    .modifiers = modifiers, .modifier_count = COUNT(modifiers),
    .type_effects = type_effects, .type_effect_count = COUNT(type_effects),
    .objects = objects, .object_count = COUNT(objects),
    .base_attributes = base_attributes, .base_attribute_count = COUNT(base_attributes),
    .base_values = base_values, .base_value_count = COUNT(base_values),
};

/* just as many bytes as are needed */
static uint8_t sheet[DOGMA_SHEET_LENGTH(
    COUNT(attributes), COUNT(effects), COUNT(modifiers), COUNT(type_effects), 0, COUNT(objects), COUNT(base_attributes), 0, 0, 0)];
static uint8_t book[DOGMA_BOOK_LENGTH(COUNT(attributes), COUNT(effects), COUNT(modifiers), COUNT(type_effects), 0)];
static uint8_t fit[DOGMA_FIT_LENGTH(COUNT(objects), COUNT(base_attributes), 0, 0, 0)];

static dogma_state states[DOGMA_OBJECTS];
static dogma_collected collected[ROOM];
static double collected_values[ROOM];
static dogma_row rows[ROOM];
static double bases[ROOM], values[ROOM];
static dogma_entry entries[ROOM];
static double entry_values[ROOM];
static dogma_plain plain[ROOM];
static dogma_source sources[ROOM];
static dogma_source_value source_values[ROOM];

/* 1 where nothing was written, and then why */
static int refused(const char *what, struct dogma_written written)
{
    if (written.number == DOGMA_DONE)
        return 0;
    fprintf(stderr, "%s: refused %" PRIu64 " %" PRIu64 "\n", what, written.number, written.place);
    return 1;
}

static int save(const char *name, const uint8_t *bytes, size_t length)
{
    FILE *file = fopen(name, "wb");
    const int done = file && fwrite(bytes, 1, length, file) == length;
    return (!file || fclose(file) == 0) && done;
}

int main(int count, char **words)
{
    const struct dogma_written written = dogma_write_sheet_checked(sheet, sizeof sheet, &tables);
    if (refused("sheet", written) || refused("book", dogma_write_book_checked(book, sizeof book, &tables))
        || refused("fit", dogma_write_fit_checked(fit, sizeof fit, &tables)))
        return 1;
    if (count == 4 && !(save(words[1], sheet, sizeof sheet) && save(words[2], book, sizeof book) && save(words[3], fit, sizeof fit)))
        return 2;
    const struct dogma_answer answer = dogma_calculate_checked(
        DOGMA_LEND(states, collected, collected_values, rows, bases, values, entries, entry_values, plain, sources, source_values),
        sheet, written.length);
    if (answer.number != DOGMA_DONE)
        return 1;
    printf("rows %" PRIu64 "\n", answer.rows);
    for (uint64_t i = 0; i < answer.rows; i++) {
        printf("%" PRIu32 " %" PRId32 " ", rows[i][DOGMA_ROW_OBJECT], DOGMA_SIGNED(rows[i][DOGMA_ROW_ATTRIBUTE]));
        print_value(values[i]);
        putchar('\n');
    }
    return 0;
}
