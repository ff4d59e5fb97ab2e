/* `export SECONDS SHEET LABELS`: times dogma_export beside dogma_calculate on the same sheet, in turn; LABELS has 2 numbers of 32 bits, how
 * many labels and how many bytes; then the labels, three numbers each, and the bytes. A line: the rounds, the rows, the bytes of the
 * text; then times in nanoseconds, each as median and the tenth and ninetieth of a hundred: dogma_calculate, lists lent to the row;
 * dogma_export, the text lent to the byte; the same with no labels. Then of neighbouring runs what the text took more, to the calculation.
 * `export count WHAT TIMES SHEET LABELS`: one of the three, 0 to 2, so many times, for a tool that counts instructions. */
enum { AHEAD = 0, ROOM = 65536, WHATS = 3, LABELS = 4096, TEXT = 30 + 172 * ROOM };

#include "timed.h"

static uint32_t given[2 + 3 * LABELS + 16 * LABELS];
static uint8_t text[TEXT];
static size_t room = TEXT, empty_room = TEXT;

static struct dogma_exported exported(int labelled)
{
    const dogma_label *labels = (const dogma_label *)(given + 2);
    return dogma_export(
        text, labelled ? room : empty_room, states, collected, rooms[0], collected_values, rooms[0], rows, rooms[1], bases, rooms[1], values,
        rooms[1], entries, rooms[2], entry_values, rooms[2], plain, rooms[3], sources, rooms[4], source_values, rooms[4], labels,
        labelled ? given[0] : 0, (const uint8_t *)(given + 2 + 3 * given[0]), labelled ? given[1] : 0, sheet, sheet_length);
}

static void run(int what)
{
    if (what == 0)
        calculated();
    else
        exported(what == 1);
}

/* the rooms of the texts, to the byte */
static void seat_texts(void)
{
    seat();
    const struct dogma_exported labelled = exported(1), empty = exported(0);
    expect(labelled.number == DOGMA_DONE && empty.number == DOGMA_DONE, "the labels are refused");
    room = labelled.length;
    empty_room = empty.length;
}

static void measure(double seconds)
{
    static double times[WHATS][MOST], ratio[MOST];
    const int rounds = take_times(seconds, WHATS, times);
    for (int round = 0; round < rounds; round++)
        ratio[round] = (times[1][round] - times[0][round]) / times[0][round];
    printf("%d %zu %zu", rounds, rooms[1], room);
    for (int what = 0; what < WHATS; what++)
        print_spread(times[what], rounds);
    print_spread(ratio, rounds);
    putchar('\n');
}

int main(int count, char **words)
{
    expect(count == 4 || count == 6, "usage: export SECONDS SHEET LABELS | export count WHAT TIMES SHEET LABELS");
    sheet_length = read_file(words[count - 2], sheet, sizeof sheet);
    read_file(words[count - 1], given, sizeof given);
    seat_texts();
    if (count == 4)
        measure(atof(words[1]));
    for (int i = 0; count == 6 && i < atoi(words[3]); i++)
        run(atoi(words[2]));
    return 0;
}
