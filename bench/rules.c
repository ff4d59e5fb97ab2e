/* `rules SECONDS SHEET LINES`: times dogma_check_rules beside dogma_calculate on the same sheet, in turn; LINES has lines of three
 * numbers of 32 bits. A line: the rounds, the objects, the lines, allowed, the broken line, its count; then times in nanoseconds, each
 * as median and the tenth and ninetieth of a hundred: dogma_calculate, lists lent to the row; dogma_check_rules; the same with no
 * lines. Then of neighbouring runs the ratio of the check to the calculation.
 * `rules count WHAT TIMES SHEET LINES`: one of the three, 0 to 2, so many times, for a tool that counts instructions. */
enum { AHEAD = 0, ROOM = 65536, WHATS = 3, LINES = 65536 };

#include "timed.h"

static dogma_rule lines[LINES];
static size_t line_count;

static struct dogma_checked checked(int what)
{
    return dogma_check_rules(lines, what == 1 ? line_count : 0, sheet, sheet_length);
}

static void run(int what)
{
    if (what == 0)
        calculated();
    else
        checked(what);
}

static void measure(double seconds)
{
    static double times[WHATS][MOST], ratio[MOST];
    const int rounds = take_times(seconds, WHATS, times);
    for (int round = 0; round < rounds; round++)
        ratio[round] = times[1][round] / times[0][round];
    const struct dogma_checked answer = checked(1);
    uint32_t objects;
    memcpy(&objects, sheet + 40, sizeof objects);
    printf("%d %u %zu %llu %llu %llu", rounds, (unsigned)objects, line_count, (unsigned long long)answer.allowed,
           (unsigned long long)answer.line, (unsigned long long)answer.count);
    for (int what = 0; what < WHATS; what++)
        print_spread(times[what], rounds);
    print_spread(ratio, rounds);
    putchar('\n');
}

int main(int count, char **words)
{
    expect(count == 4 || count == 6, "usage: rules SECONDS SHEET LINES | rules count WHAT TIMES SHEET LINES");
    sheet_length = read_file(words[count - 2], sheet, sizeof sheet);
    line_count = read_file(words[count - 1], lines, sizeof lines) / sizeof lines[0];
    seat();
    expect(checked(1).number == DOGMA_DONE, "the lines are refused");
    if (count == 4)
        measure(atof(words[1]));
    for (int i = 0; count == 6 && i < atoi(words[3]); i++)
        run(atoi(words[2]));
    return 0;
}
