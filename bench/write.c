/* `write SECONDS SHEET`: times dogma_write_sheet beside dogma_calculate on the same sheet, in turn. A line: the rounds, then times in
 * nanoseconds, each as median and the tenth and ninetieth of a hundred: writing; calculating; and of neighbouring runs their ratio.
 * `write count WHAT TIMES SHEET`: writing (0) or calculating (1) so many times, for a tool that counts instructions.
 * The tables are cut out of the sheet first, and what is written must be the sheet. Bytes are lent to the byte, lists to the row. */
enum { AHEAD = 0, ROOM = 65536 };

#include "timed.h"

static uint8_t written[DOGMA_LONGEST_SHEET];
static struct dogma_tables tables;
static dogma_attribute attributes[2048];
static dogma_effect effects[1024];
static dogma_modifier modifiers[4096];
static dogma_type_effect type_effects[4096];
static dogma_buff_collection buff_collections[64];
static dogma_object objects[1024];
static uint32_t base_attributes[16384], ids[4096], buffs[64];
static double defaults[2048], base_values[16384], buff_values[64];
static dogma_ask asks[1024];

static uint32_t word(size_t at)
{
    uint32_t x;
    memcpy(&x, sheet + at, 4);
    return x;
}

/* Table t, from 1: rows of some words, and a float behind the first of them, or none. */
static size_t cut(int t, void *numbers, size_t words, double *floats, size_t before)
{
    const size_t count = word(8 * (size_t)(t - 1)), width = 4 * words + (floats ? 8 : 0);
    const uint8_t *at = sheet + word(8 * (size_t)(t - 1) + 4);
    for (size_t k = 0; k < count; k++, at += width) {
        uint8_t *row = (uint8_t *)numbers + 4 * words * k;
        memcpy(row, at, 4 * before);
        memcpy(row + 4 * before, at + width - 4 * (words - before), 4 * (words - before));
        if (floats)
            memcpy(floats + k, at + 4 * before, 8);
    }
    return count;
}

static void cut_all(void)
{
    memcpy(tables.header, sheet + 80, sizeof tables.header);
    tables.attribute_count = tables.default_count = cut(1, attributes, 4, defaults, 2);
    tables.effect_count = cut(2, effects, 6, NULL, 6);
    tables.modifier_count = cut(3, modifiers, 7, NULL, 7);
    tables.type_effect_count = cut(4, type_effects, 3, NULL, 3);
    tables.buff_collection_count = cut(5, buff_collections, 4, NULL, 4);
    tables.object_count = cut(6, objects, 17, NULL, 17);
    tables.base_attribute_count = tables.base_value_count = cut(7, base_attributes, 1, base_values, 1);
    tables.id_count = cut(8, ids, 1, NULL, 1);
    tables.buff_count = tables.buff_value_count = cut(9, buffs, 1, buff_values, 1);
    tables.ask_count = cut(10, asks, 2, NULL, 2);
}

static struct dogma_written by_tables(void)
{
    const struct dogma_tables *t = &tables;
    return dogma_write_sheet(
        written, sheet_length, t->header, (const dogma_attribute *)attributes, t->attribute_count, defaults, t->default_count,
        (const dogma_effect *)effects, t->effect_count, (const dogma_modifier *)modifiers, t->modifier_count,
        (const dogma_type_effect *)type_effects, t->type_effect_count, (const dogma_buff_collection *)buff_collections,
        t->buff_collection_count, (const dogma_object *)objects, t->object_count, base_attributes, t->base_attribute_count, base_values,
        t->base_value_count, ids, t->id_count, buffs, t->buff_count, buff_values, t->buff_value_count, (const dogma_ask *)asks,
        t->ask_count);
}

static void run(int what)
{
    if (what == 0)
        by_tables();
    else
        calculated();
}

/* That the sheet is written as it is. */
static void ready(void)
{
    seat();
    cut_all();
    const struct dogma_written made = by_tables();
    expect(made.number == DOGMA_DONE && made.length == sheet_length && memcmp(written, sheet, sheet_length) == 0, "it is not the same sheet");
}

static void measure(double seconds)
{
    static double times[2][MOST], ratio[MOST];
    const int rounds = take_times(seconds, 2, times);
    for (int round = 0; round < rounds; round++)
        ratio[round] = times[0][round] / times[1][round];
    printf("%d", rounds);
    for (int what = 0; what < 2; what++)
        print_spread(times[what], rounds);
    print_spread(ratio, rounds);
    putchar('\n');
}

int main(int count, char **words)
{
    expect(count == 3 || count == 5, "usage: write SECONDS SHEET | write count WHAT TIMES SHEET");
    sheet_length = read_file(words[count - 1], sheet, sizeof sheet);
    ready();
    if (count == 3)
        measure(atof(words[1]));
    for (int i = 0; count == 5 && i < atoi(words[3]); i++)
        run(atoi(words[2]));
    return 0;
}
