/* Our engine's admissions and leavings, hall after hall, for compare_hall.py, which says what is read and written.
 * Before each call every column and all states are filled with rubbish. After it each element is told by a letter: = as it was,
 * 0 all its bytes zero, x anything else; so nothing of the pool has to be written out. Space before and behind each is watched. */
#include <stdio.h>
#include <stdlib.h>
#include <string.h>
#include "dogma.h"

enum { COLUMNS = 10, GUARD = 64 };
static const size_t widths[COLUMNS] = {
    sizeof(dogma_collected), 8, sizeof(dogma_row), 8, 8, sizeof(dogma_entry), 8, sizeof(dogma_plain), sizeof(dogma_source), 16 };

/* bytes that are lent, between two guards, and what they were before the call */
struct space { unsigned char *all, *before; size_t size; };

static void *lent(struct space *s, size_t size)
{
    s->size = size;
    s->all = aligned_alloc(64, (size + 2 * GUARD + 63) / 64 * 64);
    s->before = malloc(size + 2 * GUARD);
    return s->all + GUARD;
}

static void fill(struct space *s, unsigned seed)
{
    for (size_t i = 0; i < s->size + 2 * GUARD; i++)
        s->all[i] = (unsigned char)((i * 31 + seed) % 255 + 1);
    memcpy(s->before, s->all, s->size + 2 * GUARD);
}

static void tell(const struct space *s, size_t count, size_t width)
{
    static const unsigned char zero[8 * DOGMA_OBJECTS];
    putchar(memcmp(s->all, s->before, GUARD) || memcmp(s->all + GUARD + s->size, s->before + GUARD + s->size, GUARD) ? '!' : ' ');
    for (size_t i = 0; i < count; i++) {
        const unsigned char *now = s->all + GUARD + i * width;
        putchar(!memcmp(now, s->before + GUARD + i * width, width) ? '=' : !memcmp(now, zero, width) ? '0' : 'x');
    }
}

static unsigned long number(void)
{
    unsigned long n;
    if (scanf("%lu", &n) != 1)
        exit(2);
    return n;
}

static int hall(void)
{
    struct space spaces[COLUMNS], states_of, free_of, stretches_of;
    size_t counts[COLUMNS];
    void *column[COLUMNS];
    char call;
    if (scanf(" %c", &call) != 1)
        return 0;
    for (int c = 0; c < COLUMNS; c++) {
        counts[c] = number();
        column[c] = lent(&spaces[c], counts[c] * widths[c]);
    }
    dogma_state (*states)[DOGMA_OBJECTS] = lent(&states_of, sizeof(dogma_state) * DOGMA_OBJECTS * DOGMA_PILOTS);
    const size_t room = number();
    uint32_t count = (uint32_t)number();
    struct dogma_stretch *table = lent(&free_of, room * sizeof *table);
    dogma_stretch_of_list (*stretches)[DOGMA_LISTS] = lent(&stretches_of, sizeof(dogma_stretch_of_list) * DOGMA_LISTS * DOGMA_PILOTS);
    fill(&free_of, 3);
    fill(&stretches_of, 4);
    for (size_t i = 0; i < room; i++) {
        table[i].start = (uint32_t)number();
        table[i].length = (uint32_t)number();
    }
    for (int p = 0; p < DOGMA_PILOTS; p++)
        for (int l = 0; l < DOGMA_LISTS; l++) {
            stretches[p][l][0] = (uint32_t)number();
            stretches[p][l][1] = (uint32_t)number();
        }
    while (scanf(" %c", &call) == 1 && call != '.') {
        const uint32_t pool = (uint32_t)number(), pilot = (uint32_t)number(), length = (uint32_t)number();
        for (int c = 0; c < COLUMNS; c++)
            fill(&spaces[c], (unsigned)c);
        fill(&states_of, 11);
        const struct dogma_seat seat = call == 'a' ? dogma_admit(table, room, stretches, count, pool, pilot, length)
            : dogma_leave(states, column[0], counts[0], column[1], counts[1], column[2], counts[2], column[3], counts[3], column[4], counts[4],
                column[5], counts[5], column[6], counts[6], column[7], counts[7], column[8], counts[8], column[9], counts[9],
                table, room, stretches, count, pilot);
        printf("%lu %lu %lu", (unsigned long)seat.number, (unsigned long)seat.place, (unsigned long)seat.free);
        count = (uint32_t)seat.free;
        for (size_t i = 0; i < room; i++)
            printf(" %u %u", table[i].start, table[i].length);
        for (int p = 0; p < DOGMA_PILOTS; p++)
            for (int l = 0; l < DOGMA_LISTS; l++)
                printf(" %u %u", stretches[p][l][0], stretches[p][l][1]);
        putchar(' ');
        for (int c = 0; c < COLUMNS; c++)
            tell(&spaces[c], counts[c], widths[c]);
        tell(&states_of, DOGMA_PILOTS, sizeof(dogma_state) * DOGMA_OBJECTS);
        memcpy(free_of.before + GUARD, free_of.all + GUARD, free_of.size);
        memcpy(stretches_of.before + GUARD, stretches_of.all + GUARD, stretches_of.size);
        tell(&free_of, 0, 1);
        tell(&stretches_of, 0, 1);
        putchar('\n');
    }
    for (int c = 0; c < COLUMNS; c++) {
        free(spaces[c].all);
        free(spaces[c].before);
    }
    struct space *more[] = { &states_of, &free_of, &stretches_of };
    for (int k = 0; k < 3; k++) {
        free(more[k]->all);
        free(more[k]->before);
    }
    return 1;
}

int main(void)
{
    while (hall())
        continue;
    return 0;
}
