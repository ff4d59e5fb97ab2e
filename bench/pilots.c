/* `pilots SECONDS SHEET BOOK FIT`: times a pilot's call beside dogma_calculate on the same records, in turn. A line: the rounds, then
 * times in nanoseconds, each as median and the tenth and ninetieth of a hundred: the sheet; the pilot; the book with no fit (refused
 * behind SHAPE of the book); no book (refused at once); the last pilot astray (POOL, behind all its tests). Then of neighbouring runs
 * the ratio of pilot to sheet, and of the pilot's time the share of SHAPE of the book, and that of the tests of POOL.
 * `pilots count WHAT TIMES SHEET BOOK FIT`: one of the five, 0 to 4, so many times, for a tool that counts instructions.
 * Lists are lent to the row. The pilot's stretch of a list stands behind a row for each of the others, so that POOL tests all 16. */
enum { AHEAD = 16, ROOM = 65536 + AHEAD, WHATS = 5, PILOT = 3 };

#include "timed.h"

static uint8_t book[1 << 20], fit[1 << 20];
static size_t book_length, fit_length;
static dogma_state pool_states[DOGMA_PILOTS][DOGMA_OBJECTS];
static dogma_stretch_of_list stretches[DOGMA_PILOTS][DOGMA_LISTS], astray[DOGMA_PILOTS][DOGMA_LISTS];

static struct dogma_answer by_pilot(dogma_stretch_of_list (*table)[DOGMA_LISTS], size_t of_book, size_t of_fit)
{
    return dogma_calculate_pilot(
        pool_states, collected, ROOM, collected_values, ROOM, rows, ROOM, bases, ROOM, values, ROOM, entries, ROOM, entry_values, ROOM,
        plain, ROOM, sources, ROOM, source_values, ROOM, (const dogma_stretch_of_list (*)[DOGMA_LISTS])table, book, of_book, fit, of_fit,
        PILOT);
}

static struct dogma_answer answer_to(int what)
{
    switch (what) {
    case 0:
        return calculated();
    case 1:
        return by_pilot(stretches, book_length, fit_length);
    case 2:
        return by_pilot(stretches, book_length, 0);
    case 3:
        return by_pilot(stretches, 0, fit_length);
    default:
        return by_pilot(astray, book_length, fit_length);
    }
}

static void run(int what)
{
    answer_to(what);
}

/* Stretches of as many rows as the sheet needs; both ways must give the same rows. */
static void seat_pilots(void)
{
    static double kept[ROOM];
    const struct dogma_answer answer = seat();
    for (int list = 0; list < DOGMA_LISTS; list++)
        for (uint32_t pilot = 0; pilot < DOGMA_PILOTS; pilot++) {
            stretches[pilot][list][DOGMA_STRETCH_FIRST] = pilot == PILOT ? AHEAD : pilot;
            stretches[pilot][list][DOGMA_STRETCH_LENGTH] = pilot == PILOT ? (uint32_t)rooms[list] : 1;
        }
    memcpy(astray, stretches, sizeof astray);
    astray[DOGMA_PILOTS - 1][DOGMA_LISTS - 1][DOGMA_STRETCH_FIRST] = ROOM;
    memcpy(kept, values, sizeof kept);
    memset(values + AHEAD, 1, 8 * rooms[1]);
    const struct dogma_answer again = answer_to(1);
    expect(again.number == DOGMA_DONE && memcmp(&again, &answer, sizeof again) == 0, "the pilot is refused");
    expect(memcmp(kept, values, sizeof kept) == 0, "the values differ");
    const struct dogma_answer no_fit = answer_to(2), no_book = answer_to(3), lost = answer_to(4);
    expect(no_fit.number == DOGMA_SHAPE && no_fit.place == 20 && no_book.number == DOGMA_SHAPE && no_book.place == 0, "no SHAPE");
    expect(lost.number == DOGMA_POOL && lost.place == DOGMA_PILOTS - 1, "no POOL");
}

static void measure(double seconds)
{
    static double times[WHATS][MOST], ratio[MOST], book_share[MOST], pool_share[MOST];
    const int rounds = take_times(seconds, WHATS, times);
    for (int round = 0; round < rounds; round++) {
        ratio[round] = times[1][round] / times[0][round];
        book_share[round] = (times[2][round] - times[3][round]) / times[1][round];
        pool_share[round] = times[4][round] / times[1][round];
    }
    printf("%d", rounds);
    for (int what = 0; what < WHATS; what++)
        print_spread(times[what], rounds);
    print_spread(ratio, rounds);
    print_spread(book_share, rounds);
    print_spread(pool_share, rounds);
    putchar('\n');
}

int main(int count, char **words)
{
    expect(count == 5 || count == 7, "usage: pilots SECONDS SHEET BOOK FIT | pilots count WHAT TIMES SHEET BOOK FIT");
    sheet_length = read_file(words[count - 3], sheet, sizeof sheet);
    book_length = read_file(words[count - 2], book, sizeof book);
    fit_length = read_file(words[count - 1], fit, sizeof fit);
    seat_pilots();
    if (count == 5)
        measure(atof(words[1]));
    for (int i = 0; count == 7 && i < atoi(words[3]); i++)
        run(atoi(words[2]));
    return 0;
}
