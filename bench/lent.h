/* A sheet, and lists to lend, of ROOM rows each; ROOM is defined where this is included. */
#include "dogma.h"

static uint8_t sheet[1 << 20];
static dogma_state states[DOGMA_OBJECTS];
static dogma_collected collected[ROOM];
static double collected_values[ROOM], bases[ROOM], values[ROOM], entry_values[ROOM];
static dogma_row rows[ROOM];
static dogma_entry entries[ROOM];
static dogma_plain plain[ROOM];
static dogma_source sources[ROOM];
static dogma_source_value source_values[ROOM];
