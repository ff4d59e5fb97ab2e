/* Writes sheets, books and fits from tables, one after another, and calculates each sheet that is written.
 *
 * Standard input, all numbers 32 bits, little-endian, for each call: 0 for a sheet, 1 for a book, 2 for a fit; how many bytes are lent; the
 * lengths of the thirteen columns; the five header numbers; then the columns.
 * Standard output, for each call: number, place and length, 64 bits each; 1 where something was written that was not lent to be written (the
 * memory around the bytes, or a table), else 0, in 64 bits; the seven numbers of dogma_calculate's answer on the sheet, 64 bits each, or
 * zeros; then the lent bytes.
 */
#include "bytes.h"
#include "dogma.h"

enum { COLUMNS = 13, GAP = 64, ROWS = 4096 };

static const size_t sizes[COLUMNS] = {
    sizeof(dogma_attribute), 8, sizeof(dogma_effect), sizeof(dogma_modifier), sizeof(dogma_type_effect), sizeof(dogma_buff_collection),
    sizeof(dogma_object), 4, 8, 4, 4, 8, sizeof(dogma_ask),
};

static dogma_state states[DOGMA_OBJECTS];
static dogma_collected collected[ROWS];
static double collected_values[ROWS];
static dogma_row rows[ROWS];
static double bases[ROWS], values[ROWS];
static dogma_entry entries[ROWS];
static double entry_values[ROWS];
static dogma_plain plain[ROWS];
static dogma_source sources[ROWS];
static dogma_source_value source_values[ROWS];

/* The tables lie in one piece, which is compared with a copy after; columns of floats begin at a multiple of 8. */
static void call(uint32_t kind, uint32_t room, const uint32_t *lengths)
{
    static uint8_t *memory, *tables, *copy;
    static size_t memory_size, tables_size, copy_size;
    size_t begins[COLUMNS], at = 0;
    for (int c = 0; c < COLUMNS; c++) {
        at = (at + 7) / 8 * 8 + (sizes[c] == 8 && c != 12 ? 0 : 4);
        begins[c] = at;
        at += sizes[c] * lengths[c];
    }
    tables = grown(tables, &tables_size, at + 8);
    copy = grown(copy, &copy_size, at + 8);
    for (size_t i = 0; i < at; i++)
        tables[i] = filler(i);
    struct dogma_tables t;
    get(t.header, sizeof t.header);
    for (int c = 0; c < COLUMNS; c++)
        get(tables + begins[c], sizes[c] * lengths[c]);
    memcpy(copy, tables, at);
    t.attributes = (void *)(tables + begins[0]), t.attribute_count = lengths[0];
    t.defaults = (void *)(tables + begins[1]), t.default_count = lengths[1];
    t.effects = (void *)(tables + begins[2]), t.effect_count = lengths[2];
    t.modifiers = (void *)(tables + begins[3]), t.modifier_count = lengths[3];
    t.type_effects = (void *)(tables + begins[4]), t.type_effect_count = lengths[4];
    t.buff_collections = (void *)(tables + begins[5]), t.buff_collection_count = lengths[5];
    t.objects = (void *)(tables + begins[6]), t.object_count = lengths[6];
    t.base_attributes = (void *)(tables + begins[7]), t.base_attribute_count = lengths[7];
    t.base_values = (void *)(tables + begins[8]), t.base_value_count = lengths[8];
    t.ids = (void *)(tables + begins[9]), t.id_count = lengths[9];
    t.buffs = (void *)(tables + begins[10]), t.buff_count = lengths[10];
    t.buff_values = (void *)(tables + begins[11]), t.buff_value_count = lengths[11];
    t.asks = (void *)(tables + begins[12]), t.ask_count = lengths[12];

    memory = grown(memory, &memory_size, room + 2 * GAP);
    for (size_t i = 0; i < room + 2 * GAP; i++)
        memory[i] = filler(i);
    uint8_t *bytes = memory + GAP;
    const struct dogma_written written = kind == 0 ? dogma_write_sheet_checked(bytes, room, &t)
        : kind == 1 ? dogma_write_book_checked(bytes, room, &t)
                    : dogma_write_fit_checked(bytes, room, &t);
    uint64_t touched = memcmp(copy, tables, at) != 0;
    for (size_t i = 0; i < room + 2 * GAP; i++)
        touched |= (i < GAP || i >= GAP + room) && memory[i] != filler(i);
    struct dogma_answer answer = { 0, 0, 0, 0, 0, 0, 0 };
    if (kind == 0 && written.number == DOGMA_DONE)
        answer = dogma_calculate_checked(
            DOGMA_LEND(states, collected, collected_values, rows, bases, values, entries, entry_values, plain, sources, source_values),
            bytes, written.length);
    give(&written, sizeof written);
    give(&touched, sizeof touched);
    give(&answer, sizeof answer);
    give(bytes, room);
}

int main(void)
{
    uint32_t head[2 + COLUMNS];
    while (take(head, sizeof head) == sizeof head)
        call(head[0], head[1], head + 2);
    flush();
    return 0;
}
