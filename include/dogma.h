/* dogma.h: the engine's entries for C (C11; C++ for the declarations alone).
 *
 * `library/build` makes the library, libdogma.a and libdogma.so with every function of this header, for the machine at hand, and prints
 * the first's path; `library/install PREFIX` installs both. docs/GUIDE.md leads from a hull and two modules to all that there is.
 *
 * dogma_calculate takes a sheet's bytes and lent lists, and gives a number, a place and five counts; the lists hold the rest.
 * dogma_calculate_pilot does the same for up to 16 fits over one book of records, in one lent pool: see "several pilots" below.
 * dogma_admit and dogma_leave lend and take back that pool's rows as pilots come and go.
 * dogma_write_sheet makes a sheet's bytes of tables, dogma_write_book and dogma_write_fit the two parts: see "writing sheets" below.
 * dogma_check_rules holds a sheet against an organiser's table of rules: see "tournament rules" below.
 * dogma_export gives a run's rows as comma-separated text for a spreadsheet: see "spreadsheets" below.
 * dogma_check holds another planner's listing against the rules, line by line: see "another planner's figures" below.
 * The engine allocates nothing, keeps nothing between calls, and may be called from several threads with lists of their own.
 * Any bytes are taken: a damaged sheet is refused with a number and a place. What is demanded of the caller, since the
 * engine cannot test it, stands at DOGMA_DEMANDS below; dogma_calculate_checked tests it, and DOGMA_LEND counts arrays
 * itself, so that a wrong length does not compile. Use these two (for pilots dogma_calculate_pilot_checked and DOGMA_LEND_POOL)
 * unless there is a reason not to.
 *
 * What a sheet's bytes are, and what every code and number means, is in docs/FORMAT.md.
 */
#ifndef DOGMA_H
#define DOGMA_H

#include <stddef.h>
#include <stdint.h>

#ifdef __cplusplus
extern "C" {
#endif

/* ---- what comes back */

/* number and place; after DONE the rows used of lists 1 to 5, after a refusal zeros */
struct dogma_answer {
    uint64_t number;
    uint64_t place;
    uint64_t collected;
    uint64_t rows;
    uint64_t entries;
    uint64_t plain;
    uint64_t sources;
};

/* numbers, and beside each what its place is */
enum dogma_number {
    DOGMA_DONE = 0,      /* 0 */
    DOGMA_SHAPE = 1,     /* the first bad table, 1 to 10; 0 for the header; of a pilot's fit 20 more */
    DOGMA_FUNC = 2,      /* a record of table 3, from 0 */
    DOGMA_DOMAIN = 3,    /* a record of table 3 */
    DOGMA_CATEGORY = 4,  /* a record of table 2 */
    DOGMA_OPERATION = 5, /* a record of table 3; of table 5 for a buff's own operation */
    DOGMA_OTHER = 6,     /* a record of table 3 */
    DOGMA_ROOM = 7,      /* the list that is full, one of enum dogma_list */
    DOGMA_NUMBER = 8,    /* the object whose attribute was calculated */
    DOGMA_DEPTH = 9,     /* the object whose attribute was to be calculated */
    DOGMA_POOL = 12,     /* a pilot: the one asked for, which has no stretch, or the first whose stretch is astray; of an admission
                            the number as given: no free stretch is as long */
    DOGMA_PILOT = 13,    /* of an admission or a leaving: the number as given; above 15, already in, or not in */
    DOGMA_LENGTH = 14,   /* of an admission: the number as given, which wants no row */
    DOGMA_TABLE = 18,    /* of an admission or a leaving, 0: what is lent is no state of the pool */
    DOGMA_RULES = 11,    /* a line of a table of rules, from 0 */
    DOGMA_LABEL = 16,    /* of an export: a label, from 0 */
    DOGMA_LOOP = 10,     /* of a check: the lowest object with an attribute that leads back to itself */
    DOGMA_LISTING = 15,  /* of a check: the first wrong line, from 0, rows before values; the number of lines where rows are missing */
    DOGMA_MISUSED = 256  /* not the engine's: a checked form found a demand broken; enum dogma_argument, dogma_pilot_argument */
};

/* the lists, as ROOM's place has them */
enum dogma_list {
    DOGMA_LIST_COLLECTED = 1,
    DOGMA_LIST_ROWS = 2,
    DOGMA_LIST_ENTRIES = 3,
    DOGMA_LIST_PLAIN = 4,
    DOGMA_LIST_SOURCES = 5,
    DOGMA_LIST_SHEET = 6, /* of the writers: the bytes that are lent for a sheet, a book or a fit */
    DOGMA_LIST_TEXT = 8   /* of an export: the bytes that are lent for the text */
};
#define DOGMA_LISTS 5

/* ---- the columns
 *
 * A list is lent as one column of fixed rows of 32-bit numbers and none, one or two columns of floats; row i of a list is
 * element i of each of its columns, and its room is the shortest. A signed field (ids, types, groups, skills) is stored as
 * its 32 bits: read it by DOGMA_SIGNED. A flag is 0 or 1. What may be absent has a flag beside it, and is 0 when absent.
 * Objects go by their number, the record in table 6, from 0. Codes are the sheet's. Unused ends are zero.
 */

#define DOGMA_SIGNED(number) ((int32_t)(number))

/* states: one for each object, in their order; those past the last object are zero */
#define DOGMA_OBJECTS 1024
typedef uint32_t dogma_state[2];
enum dogma_state_field {
    DOGMA_STATE_STATE = 0,     /* 0 passive, 1 online, 2 active, 3 overload, 4 always on */
    DOGMA_STATE_MAX_STATE = 1
};

/* list 1, collected effects, by arrival; beside it collected_values: a buff's value, 0.0 for an effect */
typedef uint32_t dogma_collected[14];
enum dogma_collected_field {
    DOGMA_COLLECTED_ORIGIN = 0,              /* one of enum dogma_origin; what the other kind has is 0 */
    DOGMA_COLLECTED_EFFECT = 1,              /* signed */
    DOGMA_COLLECTED_SOURCE = 2,              /* object */
    DOGMA_COLLECTED_SOURCE_CATEGORY = 3,     /* one of enum dogma_category */
    DOGMA_COLLECTED_MODIFYING_ATTRIBUTE = 4, /* signed */
    DOGMA_COLLECTED_BUFF = 5,                /* signed */
    DOGMA_COLLECTED_FUNC = 6,                /* one of enum dogma_func */
    DOGMA_COLLECTED_SKILL_OR_GROUP = 7,      /* signed; the skill for funcs 0 and 3, the group for 1, else 0 */
    DOGMA_COLLECTED_OPERATOR = 8,            /* one of enum dogma_operator */
    DOGMA_COLLECTED_SOURCE_QUANTITY = 9,
    DOGMA_COLLECTED_TARGET = 10,             /* object */
    DOGMA_COLLECTED_TARGET_ATTRIBUTE = 11,   /* signed */
    DOGMA_COLLECTED_RESISTANCE_GIVEN = 12,   /* flag */
    DOGMA_COLLECTED_RESISTANCE = 13          /* signed */
};

/* list 2, attribute rows, by object, then attribute id; beside it bases and values */
typedef uint32_t dogma_row[6];
enum dogma_row_field {
    DOGMA_ROW_OBJECT = 0,
    DOGMA_ROW_ATTRIBUTE = 1,    /* signed */
    DOGMA_ROW_FIRST_ENTRY = 2,  /* in list 3 */
    DOGMA_ROW_ENTRY_COUNT = 3,
    DOGMA_ROW_FIRST_SOURCE = 4, /* in list 5; first and count are 0 where nothing is recorded */
    DOGMA_ROW_SOURCE_COUNT = 5
};

/* list 3, entries, by row, then arrival; beside it entry_values: a buff's value, 0.0 for an effect */
typedef uint32_t dogma_entry[12];
enum dogma_entry_field {
    DOGMA_ENTRY_ORIGIN = 0,              /* one of enum dogma_origin; what the other kind has is 0 */
    DOGMA_ENTRY_EFFECT = 1,              /* signed */
    DOGMA_ENTRY_SOURCE = 2,              /* object */
    DOGMA_ENTRY_SOURCE_CATEGORY = 3,     /* one of enum dogma_category */
    DOGMA_ENTRY_MODIFYING_ATTRIBUTE = 4, /* signed */
    DOGMA_ENTRY_BUFF = 5,                /* signed */
    DOGMA_ENTRY_OPERATOR = 6,            /* one of enum dogma_operator */
    DOGMA_ENTRY_PENALTY = 7,             /* flag */
    DOGMA_ENTRY_QUANTITY = 8,
    DOGMA_ENTRY_RESISTANCE_GIVEN = 9,    /* flag */
    DOGMA_ENTRY_RESISTANCE = 10,         /* signed */
    DOGMA_ENTRY_COLLECTED = 11           /* its effect's row in list 1, from 0; within a row of list 2 it ascends */
};

/* list 4, plain effects (those without modifiers), by arrival */
typedef uint32_t dogma_plain[2];
enum dogma_plain_field {
    DOGMA_PLAIN_OBJECT = 0,
    DOGMA_PLAIN_EFFECT = 1 /* signed */
};

/* list 5, source rows, by row, then arrival; only where the sheet asks for recording; beside it source_values */
typedef uint32_t dogma_source[11];
enum dogma_source_field {
    DOGMA_SOURCE_FROM = 0,            /* 0 an object, 1 a buff */
    DOGMA_SOURCE_OBJECT_OR_BUFF = 1,  /* an object's number, or a buff's id, signed */
    DOGMA_SOURCE_EFFECT_GIVEN = 2,    /* flag */
    DOGMA_SOURCE_EFFECT = 3,          /* signed */
    DOGMA_SOURCE_ATTRIBUTE_GIVEN = 4, /* flag */
    DOGMA_SOURCE_ATTRIBUTE = 5,       /* signed */
    DOGMA_SOURCE_OPERATOR = 6,        /* one of enum dogma_operator */
    DOGMA_SOURCE_QUANTITY = 7,
    DOGMA_SOURCE_PENALTY_GIVEN = 8,   /* flag */
    DOGMA_SOURCE_APPLIED = 9,         /* flag */
    DOGMA_SOURCE_STATE = 10           /* the lowest state of the source in which it runs, 0 passive to 3 overload; a buff's is 0 */
};
typedef double dogma_source_value[2];
enum dogma_source_value_field {
    DOGMA_SOURCE_VALUE = 0,
    DOGMA_SOURCE_PENALTY = 1 /* the weight of a penalised copy, 0.0 where none is given */
};

/* ---- codes that stand in the columns */

enum dogma_origin { DOGMA_ORIGIN_EFFECT = 0, DOGMA_ORIGIN_BUFF = 1 };

enum dogma_category {
    DOGMA_CATEGORY_PASSIVE = 0, DOGMA_CATEGORY_ONLINE = 1, DOGMA_CATEGORY_ACTIVE = 2, DOGMA_CATEGORY_OVERLOAD = 3,
    DOGMA_CATEGORY_TARGET = 4, DOGMA_CATEGORY_AREA = 5, DOGMA_CATEGORY_DUNGEON = 6, DOGMA_CATEGORY_SYSTEM = 7
};

enum dogma_func {
    DOGMA_FUNC_LOCATION_REQUIRED_SKILL = 0, DOGMA_FUNC_LOCATION_GROUP = 1, DOGMA_FUNC_LOCATION = 2,
    DOGMA_FUNC_OWNER_REQUIRED_SKILL = 3, DOGMA_FUNC_ITEM = 4
};

enum dogma_operator {
    DOGMA_PRE_ASSIGN = 0, DOGMA_PRE_MUL = 1, DOGMA_PRE_DIV = 2, DOGMA_MOD_ADD = 3, DOGMA_MOD_SUB = 4,
    DOGMA_POST_MUL = 5, DOGMA_POST_DIV = 6, DOGMA_POST_PERCENT = 7, DOGMA_POST_ASSIGN = 8
};

/* ---- the entry
 *
 * DOGMA_DEMANDS. The caller sees to it that
 *  1. no pointer is null, also where its count is 0 (a pointer to anything of the type will do then);
 *  2. states points to exactly DOGMA_OBJECTS pairs, and every other pointer to as many elements as the count after it says;
 *  3. each is aligned as its element is: 4 bytes for numbers, 8 for floats, 1 for the sheet;
 *  4. no two of the twelve overlap, the sheet included, and nothing else touches them during the call;
 *  5. the stack has 1 MiB left: the frames of 256 levels, the greatest depth, fit it (docs/DECISIONS.md, section 6).
 * What the lists hold before the call does not matter.
 */
struct dogma_answer dogma_calculate(
    dogma_state *states,
    dogma_collected *collected, size_t collected_count,
    double *collected_values, size_t collected_value_count,
    dogma_row *rows, size_t row_count,
    double *bases, size_t base_count,
    double *values, size_t value_count,
    dogma_entry *entries, size_t entry_count,
    double *entry_values, size_t entry_value_count,
    dogma_plain *plain, size_t plain_count,
    dogma_source *sources, size_t source_count,
    dogma_source_value *source_values, size_t source_value_count,
    const uint8_t *sheet, size_t sheet_length);

/* ---- several pilots over one book
 *
 * A sheet cut in two: the book has the game's records (tables 1 to 5 and the three category numbers), a fit is one pilot's ship
 * (tables 6 to 10, depth, recording); docs/FORMAT.md has both headers, cases/split.py cuts a sheet. One book serves every fit.
 *
 * The ten columns are now a pool for all pilots. Pilots go by a number, 0 to 15, and each has a stretch of every list: the first
 * row, and how many. It is that pilot's room: a stretch that is too short is DOGMA_ROOM, with the list. Pilot p's states are
 * states[p]. A pilot's result begins at its stretch's first row; firsts inside the lists (in list 3 and 5) count from there too:
 *     rows[stretches[p][DOGMA_LIST_ROWS - 1][DOGMA_STRETCH_FIRST] + i]        is row i of pilot p
 * A stretch of length 0 has no row, and its first is not read; so pilots that are not in have all zeros.
 *
 * A call writes the asked pilot's stretches and states, every element of them, and nothing else in the pool. Its answer hangs on
 * the book, the fit and the five lengths alone: not on where the stretches lie, and not on the other pilots.
 * Before anything is written the table of stretches is tested: DOGMA_POOL where the number asked for is above 15 or has no row in
 * any list (place: that number), or where a stretch of any pilot leaves the pool, or has a row in common with a lower pilot's
 * stretch of the same list (place: the first such pilot). Then nothing is written at all. Any other refusal leaves zeros in the
 * pilot's stretches and states. The pool's room of a list is its shortest column.
 */
#define DOGMA_PILOTS 16
typedef uint32_t dogma_stretch_of_list[2];
enum dogma_stretch_field { DOGMA_STRETCH_FIRST = 0, DOGMA_STRETCH_LENGTH = 1 };

/* DOGMA_DEMANDS hold here as well, but that states points to DOGMA_PILOTS times DOGMA_OBJECTS pairs, stretches to DOGMA_PILOTS
 * times DOGMA_LISTS stretches, and that book, fit and stretches, which are only read, may overlap each other. */
struct dogma_answer dogma_calculate_pilot(
    dogma_state (*states)[DOGMA_OBJECTS],
    dogma_collected *collected, size_t collected_count,
    double *collected_values, size_t collected_value_count,
    dogma_row *rows, size_t row_count,
    double *bases, size_t base_count,
    double *values, size_t value_count,
    dogma_entry *entries, size_t entry_count,
    double *entry_values, size_t entry_value_count,
    dogma_plain *plain, size_t plain_count,
    dogma_source *sources, size_t source_count,
    dogma_source_value *source_values, size_t source_value_count,
    const dogma_stretch_of_list (*stretches)[DOGMA_LISTS],
    const uint8_t *book, size_t book_length,
    const uint8_t *fit, size_t fit_length,
    uint32_t pilot);

/* ---- pilots come and go
 *
 * Over such a pool: dogma_admit gives a pilot as many rows as it wants, the same rows of every list, and writes its five stretches;
 * dogma_leave clears them, with its states, and gives them back. The state is all lent: the table of stretches, which
 * dogma_calculate_pilot takes as it is, and a table of free stretches with how many of them are in use. The pool's rows are those
 * that every column has. At the start it is all free:
 *     struct dogma_stretch free[DOGMA_FREE];  uint32_t count = DOGMA_START(free, pool);       and all stretches zero
 * A pilot gets the lowest run of as many free rows: the front of the first free stretch that is as long. So admit the long ones
 * first where you can: gaps stay until those beside them leave. A leaver's rows are joined to the free ones beside them.
 *
 * Numbers, in this order: TABLE where what is lent is no such state (fewer than DOGMA_FREE places; a free stretch empty, touching
 * the next or out of order; a pilot's five stretches not the same; a row below the pool's in none or in two of the free and the
 * pilots' stretches, or one above in any), PILOT, LENGTH, POOL. After these nothing is written and free is the count as given;
 * after DONE it is the new count. From the start no calls lead to TABLE, and POOL is never given to a pilot that is in.
 */
#define DOGMA_FREE 17 /* 16 pilots leave at most 17 gaps */
struct dogma_stretch { uint32_t start, length; };
struct dogma_seat { uint64_t number, place, free; }; /* free: how many free stretches there are now */

/* a pool of so many rows all free; its value is the count */
#define DOGMA_START(free, pool) ((free)[0].start = 0, ((free)[0].length = (pool)) != 0 ? UINT32_C(1) : UINT32_C(0))

/* DOGMA_DEMANDS hold: free points to free_room elements, stretches to DOGMA_PILOTS times DOGMA_LISTS, and they do not overlap.
 * pool is how many rows the shortest of the ten columns has, at most 4,294,967,295. */
struct dogma_seat dogma_admit(
    struct dogma_stretch *free, size_t free_room, dogma_stretch_of_list (*stretches)[DOGMA_LISTS],
    uint32_t count, uint32_t pool, uint32_t pilot, uint32_t length);

/* and of what is lent to dogma_calculate_pilot too: nothing overlaps */
struct dogma_seat dogma_leave(
    dogma_state (*states)[DOGMA_OBJECTS],
    dogma_collected *collected, size_t collected_count,
    double *collected_values, size_t collected_value_count,
    dogma_row *rows, size_t row_count,
    double *bases, size_t base_count,
    double *values, size_t value_count,
    dogma_entry *entries, size_t entry_count,
    double *entry_values, size_t entry_value_count,
    dogma_plain *plain, size_t plain_count,
    dogma_source *sources, size_t source_count,
    dogma_source_value *source_values, size_t source_value_count,
    struct dogma_stretch *free, size_t free_room,
    dogma_stretch_of_list (*stretches)[DOGMA_LISTS],
    uint32_t count, uint32_t pilot);

/* ---- writing sheets
 *
 * Ten tables become a sheet: counts and offsets are worked out here. A table is lent as one column of fixed rows of 32-bit numbers in the
 * order of docs/FORMAT.md's fields, and its float, where it has one, in a column beside; a table of one number (8, and the numbers of 7
 * and 9) is a plain column. A signed field goes by its 32 bits, DOGMA_UNSIGNED(-1). A table's count is its columns' length.
 *
 * The answer is what reading such a sheet would have got: DOGMA_SHAPE with the first bad table (0 for the header: a count above the most,
 * columns of one table with unlike lengths, depth not 1 to 256, recording above 1), then DOGMA_ROOM with DOGMA_LIST_SHEET where too few
 * bytes are lent. length is how many bytes were written, 0 after a refusal; the bytes behind them are zero, after a refusal all are.
 * So no sheet that is written is ever refused with DOGMA_SHAPE, and it reads back as the same tables. A NaN or an infinity is DOGMA_SHAPE.
 * dogma_write_book and dogma_write_fit write the two files that dogma_calculate_pilot takes; a fit's places are 20 more, as they are there.
 */
#define DOGMA_UNSIGNED(number) ((uint32_t)(int32_t)(number))

struct dogma_written {
    uint64_t number;
    uint64_t place;
    uint64_t length;
};

/* the numbers of a sheet's header; a book has the first three, a fit the last two */
enum dogma_header_field {
    DOGMA_HEADER_CATEGORY_MODULE = 0,           /* signed; the game's is 7 */
    DOGMA_HEADER_CATEGORY_SUBSYSTEM = 1,        /* signed; 32 */
    DOGMA_HEADER_CATEGORY_STRUCTURE_MODULE = 2, /* signed; 66 */
    DOGMA_HEADER_DEPTH = 3,                     /* 1 to 256; 256 is right unless you have a reason */
    DOGMA_HEADER_RECORDING = 4                  /* 1 if list 5 is wanted, else 0 */
};
#define DOGMA_HEADER_NUMBERS 5

/* table 1; beside it defaults: the base where an object lacks the attribute. Ids ascend strictly */
typedef uint32_t dogma_attribute[4];
enum dogma_attribute_field {
    DOGMA_ATTRIBUTE_ID = 0,    /* signed */
    DOGMA_ATTRIBUTE_FLAGS = 1, /* any of enum dogma_attribute_flag */
    DOGMA_ATTRIBUTE_MIN = 2,   /* signed; an attribute, 0 none */
    DOGMA_ATTRIBUTE_MAX = 3    /* signed; an attribute, 0 none */
};
enum dogma_attribute_flag { DOGMA_STACKABLE = 1, DOGMA_HIGH_IS_GOOD = 2 };

/* table 2. Ids ascend strictly */
typedef uint32_t dogma_effect[6];
enum dogma_effect_field {
    DOGMA_EFFECT_ID = 0,             /* signed */
    DOGMA_EFFECT_CATEGORY = 1,       /* one of enum dogma_category */
    DOGMA_EFFECT_RESISTANCE = 2,     /* signed; an attribute, 0 none */
    DOGMA_EFFECT_USAGE_CHANCE = 3,   /* signed; an attribute, 0 none */
    DOGMA_EFFECT_FIRST_MODIFIER = 4, /* in table 3 */
    DOGMA_EFFECT_MODIFIER_COUNT = 5
};

/* table 3 */
typedef uint32_t dogma_modifier[7];
enum dogma_modifier_field {
    DOGMA_MODIFIER_FUNC = 0,       /* one of enum dogma_func */
    DOGMA_MODIFIER_DOMAIN = 1,     /* one of enum dogma_domain */
    DOGMA_MODIFIER_OPERATION = 2,  /* one of enum dogma_operator; 9 is passed over */
    DOGMA_MODIFIER_MODIFYING = 3,  /* signed; an attribute */
    DOGMA_MODIFIER_MODIFIED = 4,   /* signed; an attribute */
    DOGMA_MODIFIER_SKILL_TYPE = 5, /* signed */
    DOGMA_MODIFIER_GROUP = 6       /* signed */
};

enum dogma_domain {
    DOGMA_DOMAIN_ITEM = 0, DOGMA_DOMAIN_SHIP = 1, DOGMA_DOMAIN_CHAR = 2, DOGMA_DOMAIN_OTHER = 3, DOGMA_DOMAIN_STRUCTURE = 4,
    DOGMA_DOMAIN_TARGET_ID = 5, DOGMA_DOMAIN_TARGET = 6
};

/* table 4. Types do not descend */
typedef uint32_t dogma_type_effect[3];
enum dogma_type_effect_field {
    DOGMA_TYPE_EFFECT_TYPE = 0,   /* signed */
    DOGMA_TYPE_EFFECT_EFFECT = 1, /* signed */
    DOGMA_TYPE_EFFECT_DEFAULT = 2 /* flag */
};

/* table 5. Ids ascend strictly */
typedef uint32_t dogma_buff_collection[4];
enum dogma_buff_collection_field {
    DOGMA_BUFF_COLLECTION_ID = 0,             /* signed */
    DOGMA_BUFF_COLLECTION_OPERATION = 1,      /* one of enum dogma_operator; 9 is passed over */
    DOGMA_BUFF_COLLECTION_FIRST_MODIFIER = 2, /* in table 3 */
    DOGMA_BUFF_COLLECTION_MODIFIER_COUNT = 3
};

/* table 6: ship, at most one mode, char, projected, items each with at most one charge right after, skills */
typedef uint32_t dogma_object[17];
enum dogma_object_field {
    DOGMA_OBJECT_KIND = 0,              /* one of enum dogma_kind */
    DOGMA_OBJECT_TYPE = 1,              /* signed */
    DOGMA_OBJECT_GROUP = 2,             /* signed */
    DOGMA_OBJECT_CATEGORY = 3,          /* signed */
    DOGMA_OBJECT_SLOT = 4,              /* one of enum dogma_slot; 0 for all but items */
    DOGMA_OBJECT_QUANTITY = 5,
    DOGMA_OBJECT_STATE = 6,             /* one of enum dogma_item_state */
    DOGMA_OBJECT_MAX_STATE = 7,         /* one of enum dogma_item_state */
    DOGMA_OBJECT_FLAGS = 8,             /* any of enum dogma_object_flag */
    DOGMA_OBJECT_MUTATION_BASE = 9,     /* signed; a type, read if mutated */
    DOGMA_OBJECT_PROJECTED_EFFECT = 10, /* signed; an effect, read of a projected object */
    DOGMA_OBJECT_FIRST_BASE = 11,       /* in table 7; the attributes of one object ascend strictly */
    DOGMA_OBJECT_BASE_COUNT = 12,
    DOGMA_OBJECT_FIRST_ABILITY = 13,    /* in table 8 */
    DOGMA_OBJECT_ABILITY_COUNT = 14,
    DOGMA_OBJECT_FIRST_SIDE_EFFECT = 15, /* in table 8 */
    DOGMA_OBJECT_SIDE_EFFECT_COUNT = 16
};
enum dogma_kind {
    DOGMA_KIND_SHIP = 0, DOGMA_KIND_MODE = 1, DOGMA_KIND_CHAR = 2, DOGMA_KIND_ITEM = 3, DOGMA_KIND_CHARGE = 4, DOGMA_KIND_SKILL = 5,
    DOGMA_KIND_PROJECTED = 6
};
enum dogma_slot {
    DOGMA_SLOT_NONE = 0, DOGMA_SLOT_HIGH = 1, DOGMA_SLOT_MEDIUM = 2, DOGMA_SLOT_LOW = 3, DOGMA_SLOT_RIG = 4, DOGMA_SLOT_SUBSYSTEM = 5,
    DOGMA_SLOT_SERVICE = 6, DOGMA_SLOT_DRONE_BAY = 7, DOGMA_SLOT_FIGHTER_TUBE = 8, DOGMA_SLOT_FIGHTER_BAY = 9, DOGMA_SLOT_IMPLANT = 10,
    DOGMA_SLOT_BOOSTER = 11
};
enum dogma_item_state {
    DOGMA_STATE_PASSIVE = 0, DOGMA_STATE_ONLINE = 1, DOGMA_STATE_ACTIVE = 2, DOGMA_STATE_OVERLOAD = 3, DOGMA_STATE_ALWAYS_ON = 4
};
enum dogma_object_flag { DOGMA_ABILITIES_GIVEN = 1, DOGMA_MUTATED = 2 };

/* table 7 is base_attributes (signed) and base_values, table 8 ids (signed, of effects), table 9 buffs (signed) and buff_values */

/* table 10 */
typedef uint32_t dogma_ask[2];
enum dogma_ask_field {
    DOGMA_ASK_OBJECT = 0,
    DOGMA_ASK_ATTRIBUTE = 1 /* signed */
};

/* How many bytes are needed, by the counts of the tables: attributes, effects, modifiers, type effects, buff collections, objects,
 * base attributes, ids, buffs, asks. No sheet is longer than DOGMA_LONGEST_SHEET. */
#define DOGMA_BOOK_TABLES_(a, e, m, t, b) \
    ((size_t)24 * (a) + (size_t)24 * (e) + (size_t)28 * (m) + (size_t)12 * (t) + (size_t)16 * (b))
#define DOGMA_FIT_TABLES_(o, v, i, p, k) \
    ((size_t)68 * (o) + (size_t)12 * (v) + (size_t)4 * (i) + (size_t)12 * (p) + (size_t)8 * (k))
#define DOGMA_SHEET_LENGTH(a, e, m, t, b, o, v, i, p, k) ((size_t)100 + DOGMA_BOOK_TABLES_(a, e, m, t, b) + DOGMA_FIT_TABLES_(o, v, i, p, k))
#define DOGMA_BOOK_LENGTH(a, e, m, t, b) ((size_t)52 + DOGMA_BOOK_TABLES_(a, e, m, t, b))
#define DOGMA_FIT_LENGTH(o, v, i, p, k) ((size_t)48 + DOGMA_FIT_TABLES_(o, v, i, p, k))
#define DOGMA_LONGEST_SHEET 530276

/* DOGMA_DEMANDS hold, but that tables, which are only read, may overlap each other; header points to five numbers. Little stack is used.
 * dogma_write_sheet_checked below takes the tables by name: 14 pointers by their places are easy to mix up. */
struct dogma_written dogma_write_sheet(
    uint8_t *bytes, size_t byte_count,
    const uint32_t *header,
    const dogma_attribute *attributes, size_t attribute_count,
    const double *defaults, size_t default_count,
    const dogma_effect *effects, size_t effect_count,
    const dogma_modifier *modifiers, size_t modifier_count,
    const dogma_type_effect *type_effects, size_t type_effect_count,
    const dogma_buff_collection *buff_collections, size_t buff_collection_count,
    const dogma_object *objects, size_t object_count,
    const uint32_t *base_attributes, size_t base_attribute_count,
    const double *base_values, size_t base_value_count,
    const uint32_t *ids, size_t id_count,
    const uint32_t *buffs, size_t buff_count,
    const double *buff_values, size_t buff_value_count,
    const dogma_ask *asks, size_t ask_count);

/* header points to the three category numbers */
struct dogma_written dogma_write_book(
    uint8_t *bytes, size_t byte_count,
    const uint32_t *header,
    const dogma_attribute *attributes, size_t attribute_count,
    const double *defaults, size_t default_count,
    const dogma_effect *effects, size_t effect_count,
    const dogma_modifier *modifiers, size_t modifier_count,
    const dogma_type_effect *type_effects, size_t type_effect_count,
    const dogma_buff_collection *buff_collections, size_t buff_collection_count);

/* header points to depth and recording */
struct dogma_written dogma_write_fit(
    uint8_t *bytes, size_t byte_count,
    const uint32_t *header,
    const dogma_object *objects, size_t object_count,
    const uint32_t *base_attributes, size_t base_attribute_count,
    const double *base_values, size_t base_value_count,
    const uint32_t *ids, size_t id_count,
    const uint32_t *buffs, size_t buff_count,
    const double *buff_values, size_t buff_value_count,
    const dogma_ask *asks, size_t ask_count);

/* ---- tournament rules
 *
 * An organiser's table is lines (kind, id, number), which ascend strictly by kind and, within a kind, by signed id:
 *     { DOGMA_RULE_POINTS, type, points }     points of one piece of the type, at most 65,535; a type without a line costs 0
 *     { DOGMA_RULE_MOST, group, pieces }      at most so many pieces in the group; a group without a line has no cap
 *     { DOGMA_RULE_FORBIDDEN, group, 0 }      no piece in the group; the number is not read
 *     { DOGMA_RULE_TOTAL, 0, points }         at most so many points in all
 * Counted are calculated items by quantity: modules, services, drones, fighters, implants and boosters in slots that fit them,
 * whatever their state; never the hull, charges, skills or what is projected (docs/FORMAT.md, "Tournament rules").
 *
 * number DOGMA_SHAPE with the bad table of the sheet, then DOGMA_RULES with the first bad line: the rest is 0. After DOGMA_DONE
 * allowed is 1, and line and count are 0; or allowed is 0, line is the first broken line, from 0, and count what it counted.
 */
typedef uint32_t dogma_rule[3];
enum dogma_rule_field { DOGMA_RULE_KIND = 0, DOGMA_RULE_ID = 1 /* signed */, DOGMA_RULE_NUMBER = 2 };
enum dogma_rule_kind { DOGMA_RULE_POINTS = 0, DOGMA_RULE_MOST = 1, DOGMA_RULE_FORBIDDEN = 2, DOGMA_RULE_TOTAL = 3 };
struct dogma_checked { uint64_t number, place, allowed, line, count; };

/* Nothing is written, so lines and sheet may overlap. No pointer is null, also where its count is 0; lines are aligned to 4 bytes;
 * the stack has 32 KiB left. */
struct dogma_checked dogma_check_rules(const dogma_rule *lines, size_t line_count, const uint8_t *sheet, size_t sheet_length);

/* The same of a book and a fit; SHAPE's place is 0 to 5 of the book, 20 more of the fit. */
struct dogma_checked dogma_check_rules_files(
    const dogma_rule *lines, size_t line_count, const uint8_t *book, size_t book_length, const uint8_t *fit, size_t fit_length);

/* ---- the entries with their demands tested */

/* the arguments, as MISUSED's place has them */
enum dogma_argument {
    DOGMA_ARGUMENT_STATES = 0, DOGMA_ARGUMENT_COLLECTED = 1, DOGMA_ARGUMENT_COLLECTED_VALUES = 2, DOGMA_ARGUMENT_ROWS = 3,
    DOGMA_ARGUMENT_BASES = 4, DOGMA_ARGUMENT_VALUES = 5, DOGMA_ARGUMENT_ENTRIES = 6, DOGMA_ARGUMENT_ENTRY_VALUES = 7,
    DOGMA_ARGUMENT_PLAIN = 8, DOGMA_ARGUMENT_SOURCES = 9, DOGMA_ARGUMENT_SOURCE_VALUES = 10, DOGMA_ARGUMENT_SHEET = 11,
    DOGMA_ARGUMENTS = 12
};

/* those of dogma_calculate_pilot: the first eleven are the same */
enum dogma_pilot_argument {
    DOGMA_ARGUMENT_STRETCHES = 11, DOGMA_ARGUMENT_BOOK = 12, DOGMA_ARGUMENT_FIT = 13, DOGMA_PILOT_ARGUMENTS = 14
};

/* everything that is lent, each column with the number of its elements */
struct dogma_lent {
    dogma_state *states; size_t state_count; /* DOGMA_OBJECTS, nothing else; in a pool DOGMA_PILOTS times as many */
    dogma_collected *collected; size_t collected_count;
    double *collected_values; size_t collected_value_count;
    dogma_row *rows; size_t row_count;
    double *bases; size_t base_count;
    double *values; size_t value_count;
    dogma_entry *entries; size_t entry_count;
    double *entry_values; size_t entry_value_count;
    dogma_plain *plain; size_t plain_count;
    dogma_source *sources; size_t source_count;
    dogma_source_value *source_values; size_t source_value_count;
};

/* a pool: columns and states of all pilots, and the table of their stretches */
struct dogma_pool {
    struct dogma_lent lent;
    const dogma_stretch_of_list (*stretches)[DOGMA_LISTS]; size_t stretch_count; /* of pilots: DOGMA_PILOTS, nothing else */
};

/* one argument as bytes, for the tests */
struct dogma_part_ { uintptr_t at; size_t count, width, alignment; };

/* whether a pointer may be lent by itself; where it ends must be no smaller than where it starts */
static inline int dogma_sound_(struct dogma_part_ part)
{
    return part.at != 0 && part.at % part.alignment == 0 && part.count <= PTRDIFF_MAX / part.width
        && part.at + part.count * part.width >= part.at;
}

static inline int dogma_apart_(struct dogma_part_ a, struct dogma_part_ b)
{
    return a.count == 0 || b.count == 0 || a.at + a.count * a.width <= b.at || b.at + b.count * b.width <= a.at;
}

/* The first part that breaks a demand, or how many there are: those that are written, then those that are only read. */
static inline unsigned dogma_broken_(
    const struct dogma_part_ *written, unsigned written_count, const struct dogma_part_ *read, unsigned read_count)
{
    for (unsigned i = 0; i < written_count + read_count; i++) {
        const struct dogma_part_ part = i < written_count ? written[i] : read[i - written_count];
        if (!dogma_sound_(part))
            return i;
        for (unsigned k = 0; k < i && k < written_count; k++)
            if (!dogma_apart_(written[k], part))
                return i;
    }
    return written_count + read_count;
}

/* The first argument that breaks a demand, or how many there are: eleven that are written, then those that are only read. */
static inline unsigned dogma_misused_(
    const struct dogma_lent *lent, size_t state_count, const struct dogma_part_ *read, unsigned read_count)
{
    enum { WRITTEN = DOGMA_ARGUMENT_SHEET };
    const struct dogma_part_ parts[WRITTEN] = {
        { (uintptr_t)lent->states, lent->state_count, sizeof(dogma_state), 4 },
        { (uintptr_t)lent->collected, lent->collected_count, sizeof(dogma_collected), 4 },
        { (uintptr_t)lent->collected_values, lent->collected_value_count, 8, 8 },
        { (uintptr_t)lent->rows, lent->row_count, sizeof(dogma_row), 4 },
        { (uintptr_t)lent->bases, lent->base_count, 8, 8 },
        { (uintptr_t)lent->values, lent->value_count, 8, 8 },
        { (uintptr_t)lent->entries, lent->entry_count, sizeof(dogma_entry), 4 },
        { (uintptr_t)lent->entry_values, lent->entry_value_count, 8, 8 },
        { (uintptr_t)lent->plain, lent->plain_count, sizeof(dogma_plain), 4 },
        { (uintptr_t)lent->sources, lent->source_count, sizeof(dogma_source), 4 },
        { (uintptr_t)lent->source_values, lent->source_value_count, 16, 8 },
    };
    if (lent->state_count != state_count)
        return DOGMA_ARGUMENT_STATES;
    return dogma_broken_(parts, WRITTEN, read, read_count);
}

/* The first argument that breaks a demand, or DOGMA_ARGUMENTS. That memory is there behind a pointer cannot be tested. */
static inline unsigned dogma_misused(const struct dogma_lent *lent, const uint8_t *sheet, size_t sheet_length)
{
    const struct dogma_part_ read[] = { { (uintptr_t)sheet, sheet_length, 1, 1 } };
    return dogma_misused_(lent, DOGMA_OBJECTS, read, 1);
}

/* dogma_calculate, or DOGMA_MISUSED with the argument that breaks a demand; then nothing was written. */
static inline struct dogma_answer dogma_calculate_checked(const struct dogma_lent *lent, const uint8_t *sheet, size_t sheet_length)
{
    const unsigned misused = dogma_misused(lent, sheet, sheet_length);
    if (misused != DOGMA_ARGUMENTS) {
        const struct dogma_answer answer = { DOGMA_MISUSED, misused, 0, 0, 0, 0, 0 };
        return answer;
    }
    return dogma_calculate(
        lent->states, lent->collected, lent->collected_count, lent->collected_values, lent->collected_value_count,
        lent->rows, lent->row_count, lent->bases, lent->base_count, lent->values, lent->value_count,
        lent->entries, lent->entry_count, lent->entry_values, lent->entry_value_count, lent->plain, lent->plain_count,
        lent->sources, lent->source_count, lent->source_values, lent->source_value_count, sheet, sheet_length);
}

/* The same of dogma_calculate_pilot: the first argument that breaks a demand, or DOGMA_PILOT_ARGUMENTS. */
static inline unsigned dogma_pool_misused(
    const struct dogma_pool *pool, const uint8_t *book, size_t book_length, const uint8_t *fit, size_t fit_length)
{
    const struct dogma_part_ read[] = {
        { (uintptr_t)pool->stretches, pool->stretch_count, sizeof(dogma_stretch_of_list[DOGMA_LISTS]), 4 },
        { (uintptr_t)book, book_length, 1, 1 },
        { (uintptr_t)fit, fit_length, 1, 1 },
    };
    const unsigned misused = dogma_misused_(&pool->lent, (size_t)DOGMA_PILOTS * DOGMA_OBJECTS, read, 3);
    if (misused > DOGMA_ARGUMENT_STRETCHES && pool->stretch_count != DOGMA_PILOTS)
        return DOGMA_ARGUMENT_STRETCHES;
    return misused;
}

/* dogma_calculate_pilot, or DOGMA_MISUSED with the argument (enum dogma_pilot_argument) that breaks a demand; then nothing was written. */
static inline struct dogma_answer dogma_calculate_pilot_checked(
    const struct dogma_pool *pool, const uint8_t *book, size_t book_length, const uint8_t *fit, size_t fit_length, uint32_t pilot)
{
    const struct dogma_lent *lent = &pool->lent;
    const unsigned misused = dogma_pool_misused(pool, book, book_length, fit, fit_length);
    if (misused != DOGMA_PILOT_ARGUMENTS) {
        const struct dogma_answer answer = { DOGMA_MISUSED, misused, 0, 0, 0, 0, 0 };
        return answer;
    }
    return dogma_calculate_pilot(
        (dogma_state (*)[DOGMA_OBJECTS])lent->states, lent->collected, lent->collected_count,
        lent->collected_values, lent->collected_value_count, lent->rows, lent->row_count, lent->bases, lent->base_count,
        lent->values, lent->value_count, lent->entries, lent->entry_count, lent->entry_values, lent->entry_value_count,
        lent->plain, lent->plain_count, lent->sources, lent->source_count, lent->source_values, lent->source_value_count,
        pool->stretches, book, book_length, fit, fit_length, pilot);
}

/* everything that is lent to a hall: the columns and states of all pilots, the table of their stretches, and the free ones */
struct dogma_hall {
    struct dogma_lent lent;
    dogma_stretch_of_list (*stretches)[DOGMA_LISTS]; size_t stretch_count; /* of pilots: DOGMA_PILOTS, nothing else */
    struct dogma_stretch *free; size_t free_room;
    uint32_t count; /* of the free stretches those in use; written after each call */
};

/* those of dogma_leave: the first twelve are those of dogma_calculate_pilot */
enum dogma_hall_argument { DOGMA_ARGUMENT_FREE = 12, DOGMA_HALL_ARGUMENTS = 13 };

/* The first argument of a hall that breaks a demand, or DOGMA_HALL_ARGUMENTS. */
static inline unsigned dogma_hall_misused(const struct dogma_hall *hall)
{
    const struct dogma_part_ more[] = {
        { (uintptr_t)hall->stretches, hall->stretch_count, sizeof(dogma_stretch_of_list[DOGMA_LISTS]), 4 },
        { (uintptr_t)hall->free, hall->free_room, sizeof(struct dogma_stretch), 4 },
    };
    const unsigned misused = dogma_misused_(&hall->lent, (size_t)DOGMA_PILOTS * DOGMA_OBJECTS, more, 2);
    if (misused < DOGMA_ARGUMENT_STRETCHES)
        return misused;
    if (misused == DOGMA_ARGUMENT_STRETCHES || hall->stretch_count != DOGMA_PILOTS)
        return DOGMA_ARGUMENT_STRETCHES;
    return dogma_apart_(more[0], more[1]) ? misused : DOGMA_ARGUMENT_FREE;
}

/* how many rows every column has, as far as 32 bits count them */
static inline uint32_t dogma_pool_rows(const struct dogma_lent *lent)
{
    const size_t counts[] = {
        lent->collected_count, lent->collected_value_count, lent->row_count, lent->base_count, lent->value_count,
        lent->entry_count, lent->entry_value_count, lent->plain_count, lent->source_count, lent->source_value_count };
    size_t least = UINT32_MAX;
    for (size_t i = 0; i < sizeof counts / sizeof counts[0]; i++)
        least = counts[i] < least ? counts[i] : least;
    return (uint32_t)least;
}

/* dogma_admit, or DOGMA_MISUSED with the argument that breaks a demand; then nothing was written. The hall's count is kept up. */
static inline struct dogma_seat dogma_admit_checked(struct dogma_hall *hall, uint32_t pilot, uint32_t length)
{
    const unsigned misused = dogma_hall_misused(hall);
    struct dogma_seat seat = { DOGMA_MISUSED, misused, hall->count };
    if (misused == DOGMA_HALL_ARGUMENTS)
        seat = dogma_admit(hall->free, hall->free_room, hall->stretches, hall->count, dogma_pool_rows(&hall->lent), pilot, length);
    hall->count = (uint32_t)seat.free;
    return seat;
}

/* The same of dogma_leave. */
static inline struct dogma_seat dogma_leave_checked(struct dogma_hall *hall, uint32_t pilot)
{
    const struct dogma_lent *lent = &hall->lent;
    const unsigned misused = dogma_hall_misused(hall);
    struct dogma_seat seat = { DOGMA_MISUSED, misused, hall->count };
    if (misused == DOGMA_HALL_ARGUMENTS)
        seat = dogma_leave(
            (dogma_state (*)[DOGMA_OBJECTS])lent->states, lent->collected, lent->collected_count,
            lent->collected_values, lent->collected_value_count, lent->rows, lent->row_count, lent->bases, lent->base_count,
            lent->values, lent->value_count, lent->entries, lent->entry_count, lent->entry_values, lent->entry_value_count,
            lent->plain, lent->plain_count, lent->sources, lent->source_count, lent->source_values, lent->source_value_count,
            hall->free, hall->free_room, hall->stretches, hall->count, pilot);
    hall->count = (uint32_t)seat.free;
    return seat;
}

/* ---- the writers with their demands tested */

/* the arguments, as MISUSED's place has them */
enum dogma_write_argument {
    DOGMA_ARGUMENT_BYTES = 0, DOGMA_ARGUMENT_HEADER = 1, DOGMA_ARGUMENT_ATTRIBUTES = 2, DOGMA_ARGUMENT_DEFAULTS = 3,
    DOGMA_ARGUMENT_EFFECTS = 4, DOGMA_ARGUMENT_MODIFIERS = 5, DOGMA_ARGUMENT_TYPE_EFFECTS = 6, DOGMA_ARGUMENT_BUFF_COLLECTIONS = 7,
    DOGMA_ARGUMENT_OBJECTS = 8, DOGMA_ARGUMENT_BASE_ATTRIBUTES = 9, DOGMA_ARGUMENT_BASE_VALUES = 10, DOGMA_ARGUMENT_IDS = 11,
    DOGMA_ARGUMENT_BUFFS = 12, DOGMA_ARGUMENT_BUFF_VALUES = 13, DOGMA_ARGUMENT_ASKS = 14, DOGMA_WRITE_ARGUMENTS = 15
};

/* All tables by name, each column with the number of its elements. One that is left out (null, 0) is empty. */
struct dogma_tables {
    uint32_t header[DOGMA_HEADER_NUMBERS]; /* by enum dogma_header_field */
    const dogma_attribute *attributes; size_t attribute_count;
    const double *defaults; size_t default_count;
    const dogma_effect *effects; size_t effect_count;
    const dogma_modifier *modifiers; size_t modifier_count;
    const dogma_type_effect *type_effects; size_t type_effect_count;
    const dogma_buff_collection *buff_collections; size_t buff_collection_count;
    const dogma_object *objects; size_t object_count;
    const uint32_t *base_attributes; size_t base_attribute_count;
    const double *base_values; size_t base_value_count;
    const uint32_t *ids; size_t id_count;
    const uint32_t *buffs; size_t buff_count;
    const double *buff_values; size_t buff_value_count;
    const dogma_ask *asks; size_t ask_count;
};

/* bytes that a sheet, a book's file and a fit's file of these tables need */
static inline size_t dogma_sheet_length(const struct dogma_tables *t)
{
    return DOGMA_SHEET_LENGTH(
        t->attribute_count, t->effect_count, t->modifier_count, t->type_effect_count, t->buff_collection_count, t->object_count,
        t->base_attribute_count, t->id_count, t->buff_count, t->ask_count);
}

static inline size_t dogma_book_length(const struct dogma_tables *t)
{
    return DOGMA_BOOK_LENGTH(t->attribute_count, t->effect_count, t->modifier_count, t->type_effect_count, t->buff_collection_count);
}

static inline size_t dogma_fit_length(const struct dogma_tables *t)
{
    return DOGMA_FIT_LENGTH(t->object_count, t->base_attribute_count, t->id_count, t->buff_count, t->ask_count);
}

/* a column that is left out: no pointer may be null */
static inline const void *dogma_column_(const void *column, size_t count)
{
    static const double nothing = 0.0;
    return column || count ? column : &nothing;
}

/* The tables with no null pointer where a count is 0. */
static inline struct dogma_tables dogma_tables_filled_(const struct dogma_tables *given)
{
    struct dogma_tables t = *given;
    t.attributes = (const dogma_attribute *)dogma_column_(t.attributes, t.attribute_count);
    t.defaults = (const double *)dogma_column_(t.defaults, t.default_count);
    t.effects = (const dogma_effect *)dogma_column_(t.effects, t.effect_count);
    t.modifiers = (const dogma_modifier *)dogma_column_(t.modifiers, t.modifier_count);
    t.type_effects = (const dogma_type_effect *)dogma_column_(t.type_effects, t.type_effect_count);
    t.buff_collections = (const dogma_buff_collection *)dogma_column_(t.buff_collections, t.buff_collection_count);
    t.objects = (const dogma_object *)dogma_column_(t.objects, t.object_count);
    t.base_attributes = (const uint32_t *)dogma_column_(t.base_attributes, t.base_attribute_count);
    t.base_values = (const double *)dogma_column_(t.base_values, t.base_value_count);
    t.ids = (const uint32_t *)dogma_column_(t.ids, t.id_count);
    t.buffs = (const uint32_t *)dogma_column_(t.buffs, t.buff_count);
    t.buff_values = (const double *)dogma_column_(t.buff_values, t.buff_value_count);
    t.asks = (const dogma_ask *)dogma_column_(t.asks, t.ask_count);
    return t;
}

/* The first argument, from one on to before another, that breaks a demand, or DOGMA_WRITE_ARGUMENTS. */
static inline unsigned dogma_write_misused_(
    const uint8_t *bytes, size_t byte_count, const struct dogma_tables *t, unsigned from, unsigned to)
{
    const struct dogma_part_ parts[DOGMA_WRITE_ARGUMENTS] = {
        { (uintptr_t)bytes, byte_count, 1, 1 },
        { (uintptr_t)t->header, DOGMA_HEADER_NUMBERS, 4, 4 },
        { (uintptr_t)t->attributes, t->attribute_count, sizeof(dogma_attribute), 4 },
        { (uintptr_t)t->defaults, t->default_count, 8, 8 },
        { (uintptr_t)t->effects, t->effect_count, sizeof(dogma_effect), 4 },
        { (uintptr_t)t->modifiers, t->modifier_count, sizeof(dogma_modifier), 4 },
        { (uintptr_t)t->type_effects, t->type_effect_count, sizeof(dogma_type_effect), 4 },
        { (uintptr_t)t->buff_collections, t->buff_collection_count, sizeof(dogma_buff_collection), 4 },
        { (uintptr_t)t->objects, t->object_count, sizeof(dogma_object), 4 },
        { (uintptr_t)t->base_attributes, t->base_attribute_count, 4, 4 },
        { (uintptr_t)t->base_values, t->base_value_count, 8, 8 },
        { (uintptr_t)t->ids, t->id_count, 4, 4 },
        { (uintptr_t)t->buffs, t->buff_count, 4, 4 },
        { (uintptr_t)t->buff_values, t->buff_value_count, 8, 8 },
        { (uintptr_t)t->asks, t->ask_count, sizeof(dogma_ask), 4 },
    };
    if (!dogma_sound_(parts[DOGMA_ARGUMENT_BYTES]))
        return DOGMA_ARGUMENT_BYTES;
    for (unsigned i = from; i < to; i++)
        if (!dogma_sound_(parts[i]) || !dogma_apart_(parts[DOGMA_ARGUMENT_BYTES], parts[i]))
            return i;
    return DOGMA_WRITE_ARGUMENTS;
}

static inline struct dogma_written dogma_write_misuse_(unsigned argument)
{
    const struct dogma_written written = { DOGMA_MISUSED, argument, 0 };
    return written;
}

/* dogma_write_sheet, or DOGMA_MISUSED with the argument (enum dogma_write_argument) that breaks a demand; then nothing was written. */
static inline struct dogma_written dogma_write_sheet_checked(uint8_t *bytes, size_t byte_count, const struct dogma_tables *tables)
{
    const struct dogma_tables t = dogma_tables_filled_(tables);
    const unsigned misused = dogma_write_misused_(bytes, byte_count, &t, DOGMA_ARGUMENT_ATTRIBUTES, DOGMA_WRITE_ARGUMENTS);
    if (misused != DOGMA_WRITE_ARGUMENTS)
        return dogma_write_misuse_(misused);
    return dogma_write_sheet(
        bytes, byte_count, t.header, t.attributes, t.attribute_count, t.defaults, t.default_count, t.effects, t.effect_count,
        t.modifiers, t.modifier_count, t.type_effects, t.type_effect_count, t.buff_collections, t.buff_collection_count,
        t.objects, t.object_count, t.base_attributes, t.base_attribute_count, t.base_values, t.base_value_count, t.ids, t.id_count,
        t.buffs, t.buff_count, t.buff_values, t.buff_value_count, t.asks, t.ask_count);
}

/* The same of dogma_write_book: of the tables the first five are read, of the header the first three. */
static inline struct dogma_written dogma_write_book_checked(uint8_t *bytes, size_t byte_count, const struct dogma_tables *tables)
{
    const struct dogma_tables t = dogma_tables_filled_(tables);
    const unsigned misused = dogma_write_misused_(bytes, byte_count, &t, DOGMA_ARGUMENT_ATTRIBUTES, DOGMA_ARGUMENT_OBJECTS);
    if (misused != DOGMA_WRITE_ARGUMENTS)
        return dogma_write_misuse_(misused);
    return dogma_write_book(
        bytes, byte_count, t.header, t.attributes, t.attribute_count, t.defaults, t.default_count, t.effects, t.effect_count,
        t.modifiers, t.modifier_count, t.type_effects, t.type_effect_count, t.buff_collections, t.buff_collection_count);
}

/* The same of dogma_write_fit: of the tables the last five are read, of the header depth and recording. */
static inline struct dogma_written dogma_write_fit_checked(uint8_t *bytes, size_t byte_count, const struct dogma_tables *tables)
{
    const struct dogma_tables t = dogma_tables_filled_(tables);
    const unsigned misused = dogma_write_misused_(bytes, byte_count, &t, DOGMA_ARGUMENT_OBJECTS, DOGMA_WRITE_ARGUMENTS);
    if (misused != DOGMA_WRITE_ARGUMENTS)
        return dogma_write_misuse_(misused);
    return dogma_write_fit(
        bytes, byte_count, &t.header[DOGMA_HEADER_DEPTH], t.objects, t.object_count, t.base_attributes, t.base_attribute_count,
        t.base_values, t.base_value_count, t.ids, t.id_count, t.buffs, t.buff_count, t.buff_values, t.buff_value_count,
        t.asks, t.ask_count);
}

/* ---- spreadsheets
 *
 * A run's rows as comma-separated text by RFC 4180: the header record `object,attribute,label,value`, then a record for each row of
 * list 2, in its order; every record ends in CRLF. The value is what the program `sheet` prints. An attribute's label is the caller's own,
 * and empty where there is none; one with a comma, a quote, CR or LF is quoted, and its quotes are doubled.
 *
 * A label is a row of three numbers over lent bytes; ids ascend strictly. It has at most 64 bytes, each printable ASCII (0x20 to 0x7E),
 * CR or LF. The ranges of two labels may overlap, and other bytes may be anything.
 * A label that begins with =, +, - or @ is a formula to some spreadsheet programs. Nothing is added to it here: reading the text gives
 * back just the label. Whoever takes labels from strangers should look at them first.
 *
 * Number and place: those of dogma_calculate; then DOGMA_LABEL with the first bad label; then DOGMA_ROOM with DOGMA_LIST_TEXT where the
 * text is longer than the bytes lent. After DOGMA_DONE the lists, states and counts are those of dogma_calculate, length says how many
 * bytes the text has, and the bytes behind it are zero. After a refusal the lent bytes, all lists, states and counts are zero.
 * A record has at most 172 bytes, so 30 + 172 * rows are always enough.
 * Demands: as for dogma_calculate; and text, labels and label_bytes each lie apart from everything that is written.
 */

typedef uint32_t dogma_label[3];
enum dogma_label_field {
    DOGMA_LABEL_ID = 0,    /* signed: an attribute */
    DOGMA_LABEL_FIRST = 1, /* its first byte in label_bytes */
    DOGMA_LABEL_COUNT = 2
};
#define DOGMA_LABEL_MOST 64

/* the first seven as in struct dogma_answer */
struct dogma_exported {
    uint64_t number;
    uint64_t place;
    uint64_t collected;
    uint64_t rows;
    uint64_t entries;
    uint64_t plain;
    uint64_t sources;
    uint64_t length;
};

struct dogma_exported dogma_export(
    uint8_t *text, size_t text_length, dogma_state *states, dogma_collected *collected, size_t collected_count, double *collected_values,
    size_t collected_value_count, dogma_row *rows, size_t row_count, double *bases, size_t base_count, double *values, size_t value_count,
    dogma_entry *entries, size_t entry_count, double *entry_values, size_t entry_value_count, dogma_plain *plain, size_t plain_count,
    dogma_source *sources, size_t source_count, dogma_source_value *source_values, size_t source_value_count, const dogma_label *labels,
    size_t label_count, const uint8_t *label_bytes, size_t label_byte_count, const uint8_t *sheet, size_t sheet_length);

/* ---- rules and spreadsheets with their demands tested */

/* the arguments of dogma_check_rules and dogma_check_rules_files, as MISUSED's place has them */
enum dogma_rules_argument {
    DOGMA_ARGUMENT_LINES = 0, DOGMA_ARGUMENT_RULES_SHEET = 1, DOGMA_ARGUMENT_RULES_BOOK = 1, DOGMA_ARGUMENT_RULES_FIT = 2
};

/* The answer for the first of these that may not be lent; its number is DOGMA_DONE where all may be. */
static inline struct dogma_checked dogma_rules_misuse_(const struct dogma_part_ *parts, unsigned count)
{
    struct dogma_checked checked = { DOGMA_DONE, 0, 0, 0, 0 };
    for (unsigned i = 0; i < count && checked.number == DOGMA_DONE; i++)
        if (!dogma_sound_(parts[i])) {
            checked.number = DOGMA_MISUSED;
            checked.place = i;
        }
    return checked;
}

/* dogma_check_rules, or DOGMA_MISUSED with the argument (enum dogma_rules_argument) that breaks a demand. */
static inline struct dogma_checked dogma_check_rules_checked(
    const dogma_rule *lines, size_t line_count, const uint8_t *sheet, size_t sheet_length)
{
    const struct dogma_part_ parts[] = {
        { (uintptr_t)lines, line_count, sizeof(dogma_rule), 4 }, { (uintptr_t)sheet, sheet_length, 1, 1 } };
    const struct dogma_checked misuse = dogma_rules_misuse_(parts, 2);
    return misuse.number == DOGMA_DONE ? dogma_check_rules(lines, line_count, sheet, sheet_length) : misuse;
}

/* The same of dogma_check_rules_files. */
static inline struct dogma_checked dogma_check_rules_files_checked(
    const dogma_rule *lines, size_t line_count, const uint8_t *book, size_t book_length, const uint8_t *fit, size_t fit_length)
{
    const struct dogma_part_ parts[] = {
        { (uintptr_t)lines, line_count, sizeof(dogma_rule), 4 }, { (uintptr_t)book, book_length, 1, 1 }, { (uintptr_t)fit, fit_length, 1, 1 } };
    const struct dogma_checked misuse = dogma_rules_misuse_(parts, 3);
    return misuse.number == DOGMA_DONE ? dogma_check_rules_files(lines, line_count, book, book_length, fit, fit_length) : misuse;
}

/* those of dogma_export: the first twelve are those of dogma_calculate */
enum dogma_export_argument {
    DOGMA_ARGUMENT_LABELS = 12, DOGMA_ARGUMENT_LABEL_BYTES = 13, DOGMA_ARGUMENT_TEXT = 14, DOGMA_EXPORT_ARGUMENTS = 15
};

/* dogma_export, or DOGMA_MISUSED with the argument (enum dogma_export_argument) that breaks a demand; then nothing was written. */
static inline struct dogma_exported dogma_export_checked(
    uint8_t *text, size_t text_length, const struct dogma_lent *lent, const dogma_label *labels, size_t label_count,
    const uint8_t *label_bytes, size_t label_byte_count, const uint8_t *sheet, size_t sheet_length)
{
    const struct dogma_part_ others[] = {
        { (uintptr_t)sheet, sheet_length, 1, 1 },
        { (uintptr_t)labels, label_count, sizeof(dogma_label), 4 },
        { (uintptr_t)label_bytes, label_byte_count, 1, 1 },
        { (uintptr_t)text, text_length, 1, 1 },
    };
    unsigned misused = dogma_misused_(lent, DOGMA_OBJECTS, others, 4);
    for (unsigned i = 0; i < 3 && misused == DOGMA_EXPORT_ARGUMENTS; i++)
        if (!dogma_apart_(others[i], others[3]))
            misused = DOGMA_ARGUMENT_TEXT;
    if (misused != DOGMA_EXPORT_ARGUMENTS) {
        const struct dogma_exported exported = { DOGMA_MISUSED, misused, 0, 0, 0, 0, 0, 0 };
        return exported;
    }
    return dogma_export(
        text, text_length, lent->states, lent->collected, lent->collected_count, lent->collected_values, lent->collected_value_count,
        lent->rows, lent->row_count, lent->bases, lent->base_count, lent->values, lent->value_count,
        lent->entries, lent->entry_count, lent->entry_values, lent->entry_value_count, lent->plain, lent->plain_count,
        lent->sources, lent->source_count, lent->source_values, lent->source_value_count,
        labels, label_count, label_bytes, label_byte_count, sheet, sheet_length);
}

/* ---- another planner's figures
 *
 * A listing is another planner's value of every row of list 2, in its order: a line for each, object, attribute and the value's 64 bits.
 * On a little-endian machine an array of struct { uint32_t object; int32_t attribute; double value; } is just that. dogma_check says
 * whether it is ours to the last bit, without calculating any attribute by descent: each value is to be what the rules give from the
 * other listed values. A listing that is accepted is the one that every run of the sheet gives that is done, and there is only one.
 *
 * Number and place: those of dogma_calculate up to dispatch (SHAPE; ROOM of lists 1 to 4; FUNC to OTHER), never NUMBER, DEPTH or ROOM 5;
 * then DOGMA_LOOP; then DOGMA_LISTING. Rows are compared before values. -0.0 is not 0.0; bits that are no finite number are wrong, and
 * so is what is made from them. Asks and depth play no part; where the sheet asks for recording, entries that do not run are to have a
 * finite strength, as in a run.
 * After DOGMA_DONE states and lists 1 to 4 are those of the sheet with recording 0, the values being the listed ones; sources is 0.
 * After a refusal all lists, states and counts are zero. work is scratch, a column of list 2: too short a one is DOGMA_ROOM with
 * DOGMA_LIST_ROWS. What it holds after the call is not said.
 * Demands: as for dogma_calculate; and work and listing, aligned to 4 bytes, each lie apart from everything that is written.
 */

typedef uint32_t dogma_work[4];
typedef uint32_t dogma_line[4];
enum dogma_line_field {
    DOGMA_LINE_OBJECT = 0,
    DOGMA_LINE_ATTRIBUTE = 1, /* signed */
    DOGMA_LINE_LOW = 2,       /* of the value's 64 bits the low half, then the high one */
    DOGMA_LINE_HIGH = 3
};

struct dogma_answer dogma_check(
    dogma_state *states, dogma_collected *collected, size_t collected_count, double *collected_values, size_t collected_value_count,
    dogma_row *rows, size_t row_count, double *bases, size_t base_count, double *values, size_t value_count, dogma_work *work,
    size_t work_count, dogma_entry *entries, size_t entry_count, double *entry_values, size_t entry_value_count, dogma_plain *plain,
    size_t plain_count, const uint8_t *sheet, size_t sheet_length, const dogma_line *listing, size_t line_count);

/* the arguments, as MISUSED's place has them; the first six are those of enum dogma_argument */
enum dogma_check_argument {
    DOGMA_CHECK_ARGUMENT_WORK = 6, DOGMA_CHECK_ARGUMENT_ENTRIES = 7, DOGMA_CHECK_ARGUMENT_ENTRY_VALUES = 8,
    DOGMA_CHECK_ARGUMENT_PLAIN = 9, DOGMA_CHECK_ARGUMENT_SHEET = 10, DOGMA_CHECK_ARGUMENT_LISTING = 11, DOGMA_CHECK_ARGUMENTS = 12
};

/* dogma_check, or DOGMA_MISUSED with the argument (enum dogma_check_argument) that breaks a demand; then nothing was written.
 * Of what is lent list 5 is not looked at. */
static inline struct dogma_answer dogma_check_checked(
    const struct dogma_lent *lent, dogma_work *work, size_t work_count, const uint8_t *sheet, size_t sheet_length,
    const dogma_line *listing, size_t line_count)
{
    const struct dogma_part_ written[DOGMA_CHECK_ARGUMENT_SHEET] = {
        { (uintptr_t)lent->states, lent->state_count, sizeof(dogma_state), 4 },
        { (uintptr_t)lent->collected, lent->collected_count, sizeof(dogma_collected), 4 },
        { (uintptr_t)lent->collected_values, lent->collected_value_count, 8, 8 },
        { (uintptr_t)lent->rows, lent->row_count, sizeof(dogma_row), 4 },
        { (uintptr_t)lent->bases, lent->base_count, 8, 8 },
        { (uintptr_t)lent->values, lent->value_count, 8, 8 },
        { (uintptr_t)work, work_count, sizeof(dogma_work), 4 },
        { (uintptr_t)lent->entries, lent->entry_count, sizeof(dogma_entry), 4 },
        { (uintptr_t)lent->entry_values, lent->entry_value_count, 8, 8 },
        { (uintptr_t)lent->plain, lent->plain_count, sizeof(dogma_plain), 4 },
    };
    const struct dogma_part_ read[] = {
        { (uintptr_t)sheet, sheet_length, 1, 1 }, { (uintptr_t)listing, line_count, sizeof(dogma_line), 4 }
    };
    const unsigned broken = dogma_broken_(written, DOGMA_CHECK_ARGUMENT_SHEET, read, 2);
    const unsigned misused = lent->state_count == DOGMA_OBJECTS ? broken : 0;
    if (misused != DOGMA_CHECK_ARGUMENTS) {
        const struct dogma_answer answer = { DOGMA_MISUSED, misused, 0, 0, 0, 0, 0 };
        return answer;
    }
    return dogma_check(
        lent->states, lent->collected, lent->collected_count, lent->collected_values, lent->collected_value_count,
        lent->rows, lent->row_count, lent->bases, lent->base_count, lent->values, lent->value_count, work, work_count,
        lent->entries, lent->entry_count, lent->entry_values, lent->entry_value_count, lent->plain, lent->plain_count,
        sheet, sheet_length, listing, line_count);
}

#ifdef __cplusplus
}
#else

_Static_assert(sizeof(size_t) == 8 && sizeof(double) == 8, "the library is for 64-bit machines");
_Static_assert(sizeof(struct dogma_answer) == 56, "seven numbers of 64 bits");
_Static_assert(sizeof(struct dogma_stretch) == 8 && sizeof(struct dogma_seat) == 24, "two of 32 bits, three of 64");
_Static_assert(sizeof(struct dogma_written) == 24, "three numbers of 64 bits");
_Static_assert(sizeof(struct dogma_checked) == 40, "five numbers of 64 bits");
_Static_assert(sizeof(struct dogma_exported) == 64, "eight numbers of 64 bits");

/* An array and the number of its elements. A pointer, or an array of another row, does not compile. */
#define DOGMA_ARRAY_(array, row) \
    _Generic(&(array), row (*)[sizeof(array) / sizeof((array)[0])]: (array)), sizeof(array) / sizeof((array)[0])

/* Lends eleven arrays (not pointers), in the order of dogma_calculate; states must be dogma_state[DOGMA_OBJECTS]:
 *     struct dogma_answer answer = dogma_calculate_checked(DOGMA_LEND(states, collected, ..), sheet, length);
 */
#define DOGMA_LEND(states, collected, collected_values, rows, bases, values, entries, entry_values, plain, sources, source_values) \
    (&(const struct dogma_lent) DOGMA_LENT_( \
        _Generic(&(states), dogma_state (*)[DOGMA_OBJECTS]: (states)), DOGMA_OBJECTS, \
        collected, collected_values, rows, bases, values, entries, entry_values, plain, sources, source_values))

/* Lends a pool of twelve arrays: states must be dogma_state[DOGMA_PILOTS][DOGMA_OBJECTS], stretches
 * dogma_stretch_of_list[DOGMA_PILOTS][DOGMA_LISTS], the others as above:
 *     answer = dogma_calculate_pilot_checked(DOGMA_LEND_POOL(states, collected, .., stretches), book, book_length, fit, fit_length, pilot);
 */
#define DOGMA_LEND_POOL( \
    states, collected, collected_values, rows, bases, values, entries, entry_values, plain, sources, source_values, stretches) \
    (&(const struct dogma_pool) { \
        DOGMA_LENT_( \
            _Generic(&(states), dogma_state (*)[DOGMA_PILOTS][DOGMA_OBJECTS]: &(states)[0][0]), (size_t)DOGMA_PILOTS * DOGMA_OBJECTS, \
            collected, collected_values, rows, bases, values, entries, entry_values, plain, sources, source_values), \
        _Generic(&(stretches), \
            dogma_stretch_of_list (*)[DOGMA_PILOTS][DOGMA_LISTS]: (const dogma_stretch_of_list (*)[DOGMA_LISTS])(stretches), \
            const dogma_stretch_of_list (*)[DOGMA_PILOTS][DOGMA_LISTS]: (stretches)), DOGMA_PILOTS })

/* A hall of thirteen arrays with its pool all free and nobody in: DOGMA_LEND_POOL's, then struct dogma_stretch[DOGMA_FREE or more]:
 *     struct dogma_hall hall = DOGMA_HALL(states, collected, .., stretches, free);
 * The arrays of stretches must be zero. hall.count is dogma_admit's count. */
#define DOGMA_HALL( \
    states, collected, collected_values, rows, bases, values, entries, entry_values, plain, sources, source_values, stretches, free) \
    { DOGMA_LENT_( \
            _Generic(&(states), dogma_state (*)[DOGMA_PILOTS][DOGMA_OBJECTS]: &(states)[0][0]), (size_t)DOGMA_PILOTS * DOGMA_OBJECTS, \
            collected, collected_values, rows, bases, values, entries, entry_values, plain, sources, source_values), \
        _Generic(&(stretches), dogma_stretch_of_list (*)[DOGMA_PILOTS][DOGMA_LISTS]: (stretches)), DOGMA_PILOTS, \
        DOGMA_ARRAY_(free, struct dogma_stretch), 0 }

/* the ten columns behind states and their number */
#define DOGMA_LENT_( \
    states, state_count, collected, collected_values, rows, bases, values, entries, entry_values, plain, sources, source_values) \
    { states, state_count, \
        DOGMA_ARRAY_(collected, dogma_collected), DOGMA_ARRAY_(collected_values, double), \
        DOGMA_ARRAY_(rows, dogma_row), DOGMA_ARRAY_(bases, double), DOGMA_ARRAY_(values, double), \
        DOGMA_ARRAY_(entries, dogma_entry), DOGMA_ARRAY_(entry_values, double), DOGMA_ARRAY_(plain, dogma_plain), \
        DOGMA_ARRAY_(sources, dogma_source), DOGMA_ARRAY_(source_values, dogma_source_value) }

#endif
#endif
