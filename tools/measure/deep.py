#!/usr/bin/env python3
"""Looks for positions that the program searches deepest within its allowance: most plies in the line at depth limit 81.

usage: tools/measure/deep.py [SECONDS [SEED]]

Climbs by chance from boards that have few empty cells and few lines left to complete, so that few moves are cut short by a win.
"""
import itertools, random, subprocess, sys, time
sys.dont_write_bytecode = True
from mix import PROGRAM
from positions import LINES, Game, any_line


def lines_left(marks):
    return sum(all(marks[i] in (side, ".") for i in line) for line in LINES for side in "XO")


BOARDS = {}
for marks in itertools.product("XO.", repeat=9):
    if "." in marks and not any_line(marks):
        BOARDS.setdefault((marks.count("."), lines_left(marks)), []).append(marks)


def board(rng, empty):
    fewest = min(left for count, left in BOARDS if count == empty)
    return list(rng.choice(BOARDS.get((empty, fewest + rng.choice([0, 0, 0, 1, 2])), BOARDS[empty, fewest])))


def first(rng):
    g = Game()
    g.side, g.due = rng.choice("XO"), rng.randrange(9)
    g.cells = [board(rng, rng.choice([2, 3, 3])) for _ in range(9)]
    return g


def changed(rng, g):
    h = g.copy()
    for _ in range(rng.choice([1, 1, 2, 3])):
        h.cells[rng.randrange(9)] = board(rng, rng.choice([1, 2, 2, 3, 3, 3, 4]))
    h.due = rng.choice([g.due] * 6 + list(range(9)))
    return h


def answers(games):
    """Of each game: plies of the line, last whole depth, the line of the program, its answer."""
    lines = [g.text() + " 81" for g in games]
    out = subprocess.run([PROGRAM], input="".join(line + "\n" for line in lines).encode(), stdout=subprocess.PIPE, check=True)
    for line, answer, g in zip(lines, out.stdout.decode().split("\n"), games):
        words = answer.split()
        if words[0] != "E" and words[5] != "-":
            yield len(words[5]) // 2, int(words[2]), line, answer, g


def main():
    seconds, seed = (list(map(int, sys.argv[1:])) + [120, 1][len(sys.argv) - 1:])[:2]
    rng, until, best = random.Random(seed), time.time() + seconds, {}
    games = [first(rng) for _ in range(40)]
    while time.time() < until:
        best.update((found[2], found) for found in answers(games))
        best = dict(sorted(best.items(), key=lambda item: item[1][:2], reverse=True)[:12])
        games = [changed(rng, rng.choice(list(best.values()))[4]) for _ in range(30)] + [first(rng) for _ in range(4)]
    for plies, depth, line, answer, _ in list(best.values())[:6]:
        print(f"{plies} plies, whole depth {depth}\n  {line}\n  {answer}")


main()
