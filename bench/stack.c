/* How much stack a calculation takes: `stack FILE ..` prints for each sheet its depth and the bytes used. The call is made on a
 * stack of its own that is filled with a pattern first; what is no longer the pattern was used. */
#define _GNU_SOURCE
#include <pthread.h>
#include <stdio.h>
#include <stdlib.h>
#include <string.h>

enum { SIZE = 16 << 20, ROOM = 20000, PATTERN = 0xa5 };

#include "lent.h"

static size_t length;
static struct dogma_answer answer;

static void *nothing(void *unused)
{
    return unused;
}

static void *calculation(void *unused)
{
    answer = dogma_calculate(
        states, collected, ROOM, collected_values, ROOM, rows, ROOM, bases, ROOM, values, ROOM, entries, ROOM, entry_values, ROOM,
        plain, ROOM, sources, ROOM, source_values, ROOM, sheet, length);
    return unused;
}

static size_t used_by(void *(*run)(void *))
{
    static uint8_t *memory;
    if (!memory)
        memory = aligned_alloc(1 << 16, SIZE);
    memset(memory, PATTERN, SIZE);
    pthread_attr_t attributes;
    pthread_t thread;
    pthread_attr_init(&attributes);
    if (pthread_attr_setstack(&attributes, memory, SIZE) != 0 || pthread_create(&thread, &attributes, run, NULL) != 0)
        exit(2);
    pthread_join(thread, NULL);
    size_t at = 0;
    while (at < SIZE && memory[at] == PATTERN)
        at++;
    return SIZE - at;
}

int main(int count, char **words)
{
    const size_t before = used_by(nothing);
    for (int i = 1; i < count; i++) {
        FILE *file = fopen(words[i], "rb");
        if (!file)
            return 2;
        length = fread(sheet, 1, sizeof sheet, file);
        fclose(file);
        const size_t used = used_by(calculation);
        printf("%s %d %d %zu\n", words[i], (int)answer.number, sheet[92] + 256 * sheet[93], used - before);
    }
    return 0;
}
