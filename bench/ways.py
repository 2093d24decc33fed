#!/usr/bin/env python3
"""Counts by brute force how many lists of coins let a small record pass, and compares with what the exponent allows.

    ways.py [COUNT] [SEED]        (in this folder)

Each record has at most 12 rows. Its office sets places that no mark leads to, clears places, turns flags, and leads entries
to other places, in some instances or in all. For each of the lists of coins, one for each row, the rows are opened on the
sides that the coins name, those of audited ballots on both, and judged by the rules for pointers, flags, paths, totals and
print audits. Of the lists that pass there may be no more than one in two to the exponent of each race. Ends with status 1
where there are.
"""
import itertools
import random
import sys


class Small:
    """A race's rows, with pointers on both sides, and what the record says of its entries, places and rows."""

    def __init__(self, draw):
        self.candidates, self.ballots, self.instances = draw.choice([(2, 2, 3), (2, 3, 2), (2, 2, 2), (3, 2, 2), (2, 3, 1), (3, 2, 1), (2, 6, 1)])
        self.entries = self.candidates * self.ballots
        shown = [c for _ in range(self.ballots) for c in draw.sample(range(self.candidates), self.candidates)]
        orders = [draw.sample(range(self.ballots), self.ballots) for _ in range(self.candidates)]
        self.shown = shown
        path = [orders[j][q // self.candidates] * self.candidates + j for q, j in enumerate(shown)]
        self.audited = {b for b in range(self.ballots) if draw.random() < 0.2}
        self.marked = {q for q in range(self.entries) if q // self.candidates not in self.audited and draw.random() < 0.4}
        self.lefts = [draw.sample(range(self.entries), self.entries) for _ in range(self.instances)]
        self.rights = [[path[q] for q in lefts] for lefts in self.lefts]
        self.places = {path[q] for q in self.marked}
        self.flags = [[q in self.marked for q in lefts] for lefts in self.lefts]
        for _ in range(draw.choice([0, 1, 1, 2])):
            self.alter(draw)
        self.totals = [sum(s % self.candidates == j for s in self.places) for j in range(self.candidates)]
        if draw.random() < 0.05:
            self.totals[0] += 1

    def alter(self, draw):
        kind = draw.choice(["set", "clear", "lead", "flag"])
        if kind == "set":
            self.places.add(draw.randrange(self.entries))
        elif kind == "clear" and self.places:
            self.places.remove(draw.choice(sorted(self.places)))
        elif kind == "lead":
            one, other = draw.sample(range(self.entries), 2)
            for i in range(self.instances) if draw.random() < 0.7 else [0]:
                x, y = self.lefts[i].index(one), self.lefts[i].index(other)
                self.rights[i][x], self.rights[i][y] = self.rights[i][y], self.rights[i][x]
        elif kind == "flag":
            for i in range(self.instances):
                self.flags[i][draw.randrange(self.entries)] ^= True

    def rows(self):
        return [(i, x) for i in range(self.instances) for x in range(self.entries)]

    def passes(self, coins):
        """Whether the record is accepted with these coins: True is right."""
        if self.totals != [sum(s % self.candidates == j for s in self.places) for j in range(self.candidates)]:
            return False
        paths = {}
        for (i, x), right in zip(self.rows(), coins):
            entry, place, flag = self.lefts[i][x], self.rights[i][x], self.flags[i][x]
            is_audited = entry // self.candidates in self.audited
            if (is_audited or not right) and (entry in self.marked) != flag:
                return False
            if (is_audited or right) and (place in self.places) != flag:
                return False
            # An audited ballot's paper says beside whom each of its codes stands, and each instance must lead there.
            if is_audited and (place % self.candidates != self.shown[entry] or paths.setdefault(entry, place) != place):
                return False
        return True

    def ways(self):
        return sum(self.passes(coins) for coins in itertools.product([False, True], repeat=len(self.rows())))

    def exponent(self):
        greatest = 0
        for j in range(self.candidates):
            led = [sum(q in self.marked and s % self.candidates == j for q, s in zip(self.lefts[i], self.rights[i])) for i in range(self.instances)]
            greatest = max(greatest, min(abs(self.totals[j] - count) for count in led))
        return self.instances * greatest


def main():
    count, draw = int(sys.argv[1]) if len(sys.argv) > 1 else 400, random.Random(int(sys.argv[2]) if len(sys.argv) > 2 else 1)
    met, wrong = 0, 0
    for _ in range(count):
        record = Small(draw)
        ways, exponent, rows = record.ways(), record.exponent(), len(record.rows())
        if ways * 2**exponent > 2**rows:
            print("more ways than allowed: %d of 2^%d, exponent %d" % (ways, rows, exponent))
            sys.exit(1)
        wrong += exponent > 0
        met += exponent > 0 and ways * 2**exponent == 2**rows
    print("%d records, %d with an exponent above 0, of which %d pass as often as it allows" % (count, wrong, met))


if __name__ == "__main__":
    main()
