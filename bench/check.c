/* `check SECONDS SHEET`: times dogma_check on a sheet's own listing beside dogma_calculate on the sheet, in turn, lists lent to the row.
 * A line: the rounds, number and place of the check; then times in nanoseconds, each as median and the tenth and ninetieth of a
 * hundred: dogma_calculate; dogma_check; and of neighbouring runs the ratio of the check to the calculation.
 * `check count WHAT TIMES SHEET`: one of the two, 0 or 1, so many times, for a tool that counts instructions. */
enum { AHEAD = 0, ROOM = 65536, WHATS = 2 };

#include "timed.h"

static dogma_line listing[ROOM];
static dogma_work work[ROOM];

static struct dogma_answer checked(void)
{
    return dogma_check(
        states, collected, rooms[0], collected_values, rooms[0], rows, rooms[1], bases, rooms[1], values, rooms[1], work, rooms[1],
        entries, rooms[2], entry_values, rooms[2], plain, rooms[3], sheet, sheet_length, (const dogma_line *)listing, rooms[1]);
}

/* the listing of the result that the lists hold */
static void list_own(void)
{
    for (size_t i = 0; i < rooms[1]; i++) {
        listing[i][DOGMA_LINE_OBJECT] = rows[i][DOGMA_ROW_OBJECT];
        listing[i][DOGMA_LINE_ATTRIBUTE] = rows[i][DOGMA_ROW_ATTRIBUTE];
        memcpy(&listing[i][DOGMA_LINE_LOW], &values[i], sizeof values[i]);
    }
}

static void run(int what)
{
    if (what == 0)
        calculated();
    else
        checked();
}

static void measure(double seconds)
{
    static double times[WHATS][MOST], ratio[MOST];
    const int rounds = take_times(seconds, WHATS, times);
    for (int round = 0; round < rounds; round++)
        ratio[round] = times[1][round] / times[0][round];
    const struct dogma_answer answer = checked();
    printf("%d %llu %llu", rounds, (unsigned long long)answer.number, (unsigned long long)answer.place);
    for (int what = 0; what < WHATS; what++)
        print_spread(times[what], rounds);
    print_spread(ratio, rounds);
    putchar('\n');
}

int main(int count, char **words)
{
    expect(count == 3 || count == 5, "usage: check SECONDS SHEET | check count WHAT TIMES SHEET");
    sheet_length = read_file(words[count - 1], sheet, sizeof sheet);
    seat();
    list_own();
    if (count == 3)
        measure(atof(words[1]));
    for (int i = 0; count == 5 && i < atoi(words[3]); i++)
        run(atoi(words[2]));
    return 0;
}
