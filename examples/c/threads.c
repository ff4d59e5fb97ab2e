/* Eight threads with lists of their own, a million calls: every byte of every list is what the first run gave. threads SHEET .. */
#include <inttypes.h>
#include <pthread.h>
#include <stdio.h>
#include <stdlib.h>
#include <string.h>

#include "dogma.h"

enum { THREADS = 8, CALLS = 1000000, ROOM = 64, MOST = 256, LONGEST = 1 << 16 };

/* all that is lent, and the answer */
struct lists {
    dogma_state states[DOGMA_OBJECTS];
    double collected_values[ROOM], bases[ROOM], values[ROOM], entry_values[ROOM];
    dogma_source_value source_values[ROOM];
    dogma_collected collected[ROOM];
    dogma_row rows[ROOM];
    dogma_entry entries[ROOM];
    dogma_plain plain[ROOM];
    dogma_source sources[ROOM];
    struct dogma_answer answer;
};

static uint8_t sheets[MOST][LONGEST];
static size_t lengths[MOST];
static int count;
static struct lists first[MOST];

static void calculate(struct lists *l, int which)
{
    l->answer = dogma_calculate_checked(
        DOGMA_LEND(
            l->states, l->collected, l->collected_values, l->rows, l->bases, l->values, l->entries, l->entry_values, l->plain,
            l->sources, l->source_values),
        sheets[which], lengths[which]);
}

/* how many calls gave something else */
static void *run(void *thread)
{
    struct lists *own = malloc(sizeof *own);
    uintptr_t wrong = !own;
    /* what the lists hold before a call does not matter */
    if (own)
        memset(own, 0xa5, sizeof *own);
    for (int call = 0; own && call < CALLS / THREADS; call++) {
        const int which = (int)((uintptr_t)thread + (unsigned)call) % count;
        calculate(own, which);
        wrong += memcmp(own, &first[which], sizeof *own) != 0;
    }
    free(own);
    return (void *)wrong;
}

int main(int words_count, char **words)
{
    uint64_t done = 0, wrong = 0;
    for (; count < words_count - 1 && count < MOST; count++) {
        FILE *file = fopen(words[count + 1], "rb");
        if (!file)
            return 2;
        lengths[count] = fread(sheets[count], 1, LONGEST, file);
        fclose(file);
        calculate(&first[count], count);
        done += first[count].answer.number == DOGMA_DONE;
    }
    pthread_t threads[THREADS];
    for (uintptr_t i = 0; i < THREADS; i++)
        if (pthread_create(&threads[i], NULL, run, (void *)i))
            return 2;
    for (int i = 0; i < THREADS; i++) {
        void *said;
        pthread_join(threads[i], &said);
        wrong += (uintptr_t)said;
    }
    printf("%d threads, %d calls over %d sheets, %" PRIu64 " of them not refused: %" PRIu64 " differ\n", THREADS, CALLS, count, done, wrong);
    return wrong != 0 || done == 0;
}
