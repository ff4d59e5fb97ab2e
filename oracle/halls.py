#!/usr/bin/env python3
"""M-107 in Python, apart from the engine: pilots admitted to a pool of rows and leaving it, by rows.

A hall is the pool's number of rows, the table of free stretches with how many are in use, and 16 pilots' five pairs. Whose each row is
decides everything; the free stretches are the runs of rows that are nobody's. A stretch is a list of start and length.
Usage: halls.py ROWS a PILOT LENGTH .. l PILOT ..: prints each answer and the free stretches after it.
"""
import sys

DONE, POOL, PILOT, LENGTH, TABLE = 0, 12, 13, 14, 18
PILOTS, LISTS, PLACES = 16, 5, 17
MANY = 10 ** 5


class Hall:
    def __init__(self, rows, table, count, stretches):
        self.rows, self.table, self.count, self.stretches = rows, [list(s) for s in table], count, [[list(s) for s in five] for five in stretches]

    @staticmethod
    def start(rows, places=PLACES, rubbish=(0, 0)):
        table = [[0, rows]] + [list(rubbish) for _ in range(places - 1)]
        return Hall(rows, table, 1 if rows else 0, [[[0, 0]] * LISTS] * PILOTS)

    def seat(self, pilot):
        return self.stretches[pilot][0]

    def owners(self):
        """Of each row those that have it: a pilot's number, or -1 for a free stretch; none where a row lies outside the pool."""
        owners = [[] for _ in range(self.rows)]
        for who, (start, length) in [(-1, s) for s in self.table[:self.count]] + [(p, self.seat(p)) for p in range(PILOTS)]:
            if length and start + length > self.rows:
                return None
            for row in range(start, start + length):
                owners[row].append(who)
        return owners

    def good(self):
        if len(self.table) < PLACES or self.count > len(self.table):
            return False
        if any(pair != five[0] for five in self.stretches for pair in five):
            return False
        end = -1
        for start, length in self.table[:self.count]:
            if length == 0 or start <= end:
                return False
            end = start + length
        if self.rows > MANY:
            return self.follow_each_other()
        owners = self.owners()
        return owners is not None and all(len(who) == 1 for who in owners)

    def follow_each_other(self):
        """The same of a pool with too many rows to look at each: all stretches, by start, follow each other from 0 to its end."""
        end = 0
        for start, length in sorted(s for s in self.table[:self.count] + [self.seat(p) for p in range(PILOTS)] if s[1]):
            if start != end:
                return False
            end += length
        return end == self.rows

    def runs(self):
        """The runs of rows that no pilot has."""
        if self.rows > MANY:
            return self.gaps()
        free = [True] * self.rows
        for p in range(PILOTS):
            start, length = self.seat(p)
            free[start:start + length] = [False] * length
        runs = []
        for row in range(self.rows):
            if free[row] and row and free[row - 1]:
                runs[-1][1] += 1
            elif free[row]:
                runs.append([row, 1])
        return runs

    def gaps(self):
        """The same of a pool with too many rows to look at each."""
        runs, end = [], 0
        for start, length in sorted(self.seat(p) for p in range(PILOTS) if self.seat(p)[1]) + [[self.rows, 0]]:
            if start > end:
                runs.append([end, start - end])
            end = start + length
        return runs

    def settle(self):
        """The table becomes the free runs; places given up are zero, those behind stay."""
        runs = self.runs()
        for at in range(max(self.count, len(runs))):
            self.table[at] = runs[at] if at < len(runs) else [0, 0]
        self.count = len(runs)

    def admit(self, pilot, length):
        if not self.good():
            return TABLE, 0
        if pilot >= PILOTS or self.seat(pilot)[1]:
            return PILOT, pilot
        if length == 0:
            return LENGTH, pilot
        starts = [start for start, long in self.runs() if long >= length]
        if not starts:
            return POOL, pilot
        self.stretches[pilot] = [[min(starts), length] for _ in range(LISTS)]
        self.settle()
        return DONE, 0

    def leave(self, pilot):
        """With the answer the stretch that is cleared, or none."""
        if not self.good():
            return TABLE, 0, None
        if pilot >= PILOTS or not self.seat(pilot)[1]:
            return PILOT, pilot, None
        left = self.seat(pilot)
        self.stretches[pilot] = [[0, 0] for _ in range(LISTS)]
        self.settle()
        return DONE, 0, left


def main():
    words = sys.argv[1:]
    hall = Hall.start(int(words.pop(0)))
    while words:
        call = words.pop(0)
        pilot = int(words.pop(0))
        answer = hall.admit(pilot, int(words.pop(0))) if call == "a" else hall.leave(pilot)[:2]
        print(*answer, "free", *map(tuple, hall.table[:hall.count]))


if __name__ == "__main__":
    main()
