"""Requests for the driver, drawn at random (docs/ORACLE.md says what a request is).

ROWS says what is drawn, how much of it at size 1, and in which order. The lists in the repository are those of seeds 1 and 2
(`stored_requests`), so a row can't be changed without making other lists. `drawn` draws as many requests of each kind as are
asked for, none twice, from ROWS and from MORE.
"""
import random
from positions import (LETTERS, Game, after, any_move, any_text, cornered, critical, damaged, damaged_section, late, letters, lined, pair,
                       playout, sound, unsound_text)

EMPTY = Game().text()
SIZES = [0, 1, 2, 7, 64, 1000, 65536]


class Tables:
    """The table sizes that searches are drawn with: most searches, the long ones from early and those from late positions."""

    def __init__(self, most, early, late):
        self.most, self.early, self.late = most, early, late


STORED = Tables([0, 1, 2, 7, 64, 1000], [0, 1000, 65521, 65536], [0, 7, 1000, 65536])
ALL = Tables(SIZES, SIZES, SIZES)


def play(rng, *how, **more):
    return "play\t" + playout(rng, *how, **more)[0]


def play_from(rng):
    return "from\t" + any_text(rng) + "\t" + "".join(letters(any_move(rng, 9)) for _ in range(rng.randrange(1, 60)))


def fitting_depth(rng, empty):
    """A depth that is searched in little time with so many empty cells."""
    if empty <= 8:
        return rng.choice([1, 2, 5, 9, 20, 81])
    if empty <= 14:
        return rng.choice([3, 4, 6, 8, 12])
    return rng.choice([2, 4, 5, 6] if empty <= 24 else [1, 2, 3, 4, 4])


def line(text, depth):
    return f"program\t{text} {depth}"


def line_fitting(rng, g):
    return line(g.text(), fitting_depth(rng, g.empty_cells()))


def line_of_play(rng):
    g = after(rng, rng.randrange(78), "any", "long", "win")
    depth = fitting_depth(rng, g.empty_cells())
    return line(g.text(), rng.choice([str(depth), "%02d" % depth]))


def line_damaged(rng):
    text = any_text(rng)
    text = damaged(rng, text) if rng.random() < .6 else damaged_section(rng, text)
    ends = [" 1", " 2", " 1", " 2", " 0", " 82", "", " ", " 100", " x", " 1 ", "  1", " +1", " -1", " 01", " \u0661"]
    return f"program\t{text}{rng.choice(ends)}"


def some_answers(rng, size, most):
    """Remembered answers, drawn with no regard to what is legal."""
    def one():
        return rng.choice("XO") + "".join(LETTERS[rng.randrange(size)] for _ in range(4))
    return ",".join(one() for _ in range(rng.randrange(1, most)))


def search(rng, tables):
    kind = rng.random()
    if kind < .55:
        text, depth = after(rng, rng.randrange(10, 78), "any", "long", "win").text(), rng.randrange(1, 5)
    elif kind < .8:
        g = late(rng, 1, 20)
        text, depth = g.text(), rng.randrange(2, 9) if g.empty_cells() > 8 else rng.randrange(1, 82)
    elif kind < .9:
        text, depth = sound(rng).text(), rng.randrange(1, 4)
    else:
        text, depth = unsound_text(rng), rng.randrange(1, 4)
    fields = ["search", text, depth, rng.choice(tables.most), rng.choice("-XO")]
    if rng.random() < .3:
        fields.append(some_answers(rng, 9, 60))
    elif rng.random() < .15:
        fields.append(some_answers(rng, 16, 120))
    return "\t".join(map(str, fields))


def chain(rng, tables):
    """Searches with one memory: of a game's positions one after the other, or of unlike ones."""
    fields = ["searches", rng.choice(tables.most), rng.choice("-XO")]
    if rng.random() < .7:
        g = after(rng, rng.randrange(10, 45), "any", "long")
        for _ in range(rng.randrange(2, 7)):
            if rng.random() < .05 or not g.moves():
                break
            fields += [g.text(), rng.randrange(1, 5)]
            if rng.random() < .8:
                g.play(*rng.choice(g.moves()))
        if len(fields) < 5:
            fields += [g.text(), rng.randrange(1, 5)]
    else:
        for _ in range(rng.randrange(2, 6)):
            fields += [any_text(rng), rng.randrange(1, 4)]
    return "\t".join(map(str, fields))


ALLOWANCES = [1, 2, 3, 9, 10, 11, 80, 81, 82, 83, 100, 1000, 5000, 12345, 100000, 1000000]


def stop(rng, tables):
    g = after(rng, rng.randrange(0, 70), "any", "long") if rng.random() < .9 else sound(rng)
    fields = ["stop", g.text(), rng.randrange(1, 7), rng.choice(tables.most), rng.choice("-XO"), rng.choice(ALLOWANCES)]
    return "\t".join(map(str, fields))


def stop_with_answers(rng, tables):
    return stop(rng, tables) + "\t" + some_answers(rng, rng.choice([9, 16]), 60)


def stop_without_table(rng):
    g = playout(rng, rng.randrange(70))[1]
    allowance = rng.choice([1, 2, 5, 9, 10, 50, 82, 83, 500, 5000, 20000])
    return f"stop\t{g.text()}\t{rng.randrange(1, 6)}\t0\t-\t{allowance}"


def long_early(rng, tables):
    g = after(rng, rng.choice([0, 2, 4, 8, 15, 25, 40]), "any", "long")
    return f"search\t{g.text()}\t{rng.choice([5, 6, 7])}\t{rng.choice(tables.early)}\t{rng.choice('--XO')}"


def long_late(rng, tables):
    """To the end of the game, with every depth up to 81."""
    return f"search\t{late(rng, 8, 16).text()}\t81\t{rng.choice(tables.late)}\t{rng.choice('--XO')}"


def search_without_table(rng):
    g = after(rng, rng.randrange(20, 75), "any", "long")
    depth = rng.randrange(0, 4) if g.due is not None else rng.randrange(0, 3)
    return f"search\t{g.text()}\t{depth}\t0\t{rng.choice('-XO')}"


def refused_search(rng, k):
    """A search that document 01 refuses, of six sorts by turns."""
    text = late(rng, 1, 6).text()
    sort = k % 6
    depth = [0, 82, 255][sort] if sort < 3 else rng.randrange(1, 5)
    entries = 65537 if sort == 5 else rng.choice([0, 1, 7])
    draw = rng.choice("-XO")
    if sort in (3, 4):
        return f"stop\t{text}\t{depth}\t{entries}\t{draw}\t{[0, 1000000001][sort - 3]}"
    return f"search\t{text}\t{depth}\t{entries}\t{draw}" + ("\tXeeab,Oppcc" if sort == 5 else "")


def lined_line(rng):
    return line(lined(rng).text(), rng.randrange(4))


def move_text(rng):
    return "move\t" + "".join(chr(rng.randrange(32, 127)) for _ in range(2))


def near_move_text(rng):
    """One to three characters, most of them near those that are read."""
    return "move\t" + "".join(rng.choice("abcdefghi" * 3 + "`jAIé€ ~") for _ in range(rng.choice([1, 2, 2, 2, 2, 3])))


def evaluation(text, draw):
    return f"eval\t{text}\t{draw}"


SETS = (1, 2, 4, 5, 6, 7)
MERGES = [f"merge\t{a}\t{b}" for a in SETS for b in SETS]
MOVES = ["move\t" + a + b for a in "aiej`AI" for b in "aiej`A"] + \
    ["move\t" + t for t in ("", "a", "aaa", "é", "aé", "  ", "€", "ab ", "/;", "pp")]
TEXTS = ["parse\t" + t for t in ("", ";", ";;", ";;;", "X;;", "X;.........;", EMPTY[:100], EMPTY[:101], EMPTY + "." * 155,
                                 EMPTY + "." * 156, EMPTY + "é")]
# Lengths at the edges of what is read, and two due marks with text after the ninth board.
LENGTHS = ["parse\t" + t for t in ("", "X", EMPTY[:100], EMPTY, EMPTY + "x", EMPTY + "x" * 154, EMPTY + "x" * 155,
                                   "O;XX#.@.OO@;" + "/".join(["XOXOXO.XO"] * 9) + " " * 154,
                                   "X;@.......@;" + "/".join(["O...X...O"] * 9) + "/" * 154)]

# Kind; how many at size 1; a draw, given the generator, its number in the row and the table sizes. Or kind and the requests themselves.
ROWS = [
    ("play", 90, lambda r, k, t: play(r, k % 90)),
    ("play", 120, lambda r, k, t: play(r)),
    ("play", 40, lambda r, k, t: play(r, style="draw")),
    ("play", 20, lambda r, k, t: play(r, style="win")),
    ("play", 160, lambda r, k, t: play(r, r.randrange(80), refuse=.35, style=r.choice(["any", "draw", "win"]))),
    ("play", 40, lambda r, k, t: play(r, 85, refuse=.1)),
    ("play", ["play\t" + "".join(a + b for a in LETTERS for b in LETTERS)]),
    ("from", 120, lambda r, k, t: play_from(r)),
    ("line", 150, lambda r, k, t: line_fitting(r, after(r, r.randrange(78), "any", "long", "win"))),
    ("line", 80, lambda r, k, t: line_fitting(r, late(r, 1, 22))),
    ("line", 30, lambda r, k, t: line(after(r, None, "any", "draw").text(), r.choice([1, 3, 81]))),
    ("line", 60, lambda r, k, t: line(sound(r).text(), r.choice([1, 2, 3]))),
    ("line", 60, lambda r, k, t: line(unsound_text(r), r.choice([1, 2, 3]))),
    ("line", 30, lambda r, k, t: line(damaged(r, any_text(r)), r.choice([1, 2]))),
    ("line", 3, lambda r, k, t: line(late(r, 1, 6).text(), 0)),
    ("line", 3, lambda r, k, t: line(late(r, 1, 6).text(), 1)),
    ("line", 3, lambda r, k, t: line(late(r, 1, 6).text(), 81)),
    ("line", 3, lambda r, k, t: line(late(r, 1, 6).text(), 82)),
    ("program", 150, lambda r, k, t: line_of_play(r)),
    ("program", 25, lambda r, k, t: line(playout(r, r.randrange(50))[1].text(), r.choice(["81", "40", "12"]))),
    ("program", 100, lambda r, k, t: line(any_text(r), r.choice([0, 1, 1, 2, 2, 3, 82, 99]))),
    ("program", 150, lambda r, k, t: line_damaged(r)),
    ("program", [line((EMPTY + "#" * 400)[:n], 1) for n in (100, 101, 102, 255, 256, 257, 258)]),
    ("spent", 50, lambda r, k, t: stop_without_table(r)),
    ("search", 320, lambda r, k, t: search(r, t)),
    ("searches", 160, lambda r, k, t: chain(r, t)),
    ("stop", 200, lambda r, k, t: stop(r, t)),
    ("long", 40, lambda r, k, t: long_early(r, t)),
    ("long", 20, lambda r, k, t: long_late(r, t)),
    ("off", 60, lambda r, k, t: search_without_table(r)),
    ("parse", 80, lambda r, k, t: "parse\t" + any_text(r)),
    ("parse", 200, lambda r, k, t: "parse\t" + damaged(r, any_text(r))),
    ("parse", 100, lambda r, k, t: "parse\t" + damaged_section(r, any_text(r))),
    ("parse", 60, lambda r, k, t: "parse\t" + unsound_text(r)),
    ("parse", TEXTS),
    ("move", MOVES),
    ("move", 20, lambda r, k, t: move_text(r)),
    ("endgame", 150, lambda r, k, t: "endgame\t" + after(r, r.randrange(25, 80), "any", "long", "win", "draw").text()),
    ("endgame", 200, lambda r, k, t: "endgame\t" + sound(r).text()),
    ("endgame", 250, lambda r, k, t: "endgame\t" + critical(r).text()),
    ("endgame", 150, lambda r, k, t: "endgame\t" + cornered(r).text()),
    ("endgame", 80, lambda r, k, t: "endgame\t" + late(r, 1, 15).text()),
    ("endgame", 80, lambda r, k, t: "endgame\t" + unsound_text(r)),
    ("lined", 40, lambda r, k, t: lined_line(r)),
    ("equiv", 100, lambda r, k, t: "equiv\t" + "\t".join(pair(r))),
    ("eval", 150, lambda r, k, t: evaluation(any_text(r), r.choice("-XO"))),
    ("eval", 20, lambda r, k, t: evaluation(playout(r, None, style="draw")[1].text(), r.choice("-XO"))),
    ("status", [f"status\t{n}" for n in range(256) if n < 20 or n % 17 == 0] + MERGES),
    ("cells", 40, lambda r, k, t: "cells\t" + any_text(r)),
    ("coords", [f"coords\t{board}\t{cell}" for board in range(9) for cell in range(9)]),
    ("won", [f"won\t{n}" for n in SETS]),
]

# What is drawn besides for a comparison.
MORE = [
    ("parse", LENGTHS),
    ("hash", 1, lambda r, k, t: "from\t" + any_text(r) + "\t"),
    ("move", 100, lambda r, k, t: near_move_text(r)),
    ("status", [f"status\t{n}" for n in range(256)]),
    ("stop", 60, lambda r, k, t: stop_with_answers(r, t)),
    ("refused", 1, lambda r, k, t: refused_search(r, k)),
]


def as_endgame(request):
    """The endgame request for a program line's position."""
    return "endgame\t" + request.split("\t")[1].rpartition(" ")[0]


def of_size(rng, size, tables):
    """The requests of ROWS by kind, all drawn from one generator."""
    found = {}
    for kind, *row in ROWS:
        requests = found.setdefault(kind, [])
        if len(row) == 1:
            requests += row[0]
        else:
            requests += [row[1](rng, k, tables) for k in range(max(1, int(row[0] * size)))]
    found["endgame"] += [as_endgame(request) for request in found["lined"]]
    found["program"] += found["lined"]
    return found


def stored_requests():
    """The requests of the stored lists: two lots, by kind."""
    first = of_size(random.Random(1), 1, STORED)
    first["parse"] += LENGTHS
    rng = random.Random(2)
    second = {
        "eval": of_size(random.Random(2), 12, STORED)["eval"],
        "searches": of_size(random.Random(2), .5, STORED)["searches"],
        "refused": [refused_search(rng, k) for k in range(24)],
    }
    return first, second


# The kinds of a comparison: which rows they are drawn from, and their parts of the whole.
KINDS = {
    "play": (["play"], 12), "from": (["from"], 8), "hash": (["hash"], 8), "equiv": (["equiv"], 5), "parse": (["parse"], 20),
    "move": (["move"], 2), "status": (["status"], 1), "eval": (["eval"], 10), "endgame": (["endgame", "lined"], 10),
    "search": (["search", "off"], 8), "long": (["long"], .5), "searches": (["searches"], 4), "stop": (["stop", "spent"], 6),
    "refused": (["refused"], .5), "program": (["program", "line", "lined"], 10), "cells": (["cells"], 5), "coords": (["coords"], .5),
    "won": (["won"], .1),
}


def of_kind(kind, count, rng):
    """So many requests of a kind, no two alike; fewer if there are no more."""
    rows = [row[1:] for row in ROWS + MORE if row[0] in KINDS[kind][0]]
    fixed = [request for row in rows if len(row) == 1 for request in row[0]]
    draws = [row for row in rows if len(row) == 2]
    found = dict.fromkeys(fixed[:count])
    for k in range(20 * count if draws else 0):
        if len(found) >= count:
            break
        draw = rng.choices(draws, [share for share, _ in draws])[0][1]
        request = draw(rng, k, ALL)
        found[as_endgame(request) if kind == "endgame" and request.startswith("program") else request] = None
    return list(found)


def drawn(total, seed):
    """So many requests in all, by kind. What a kind lacks, texts to be read make up for."""
    whole = sum(part for _, part in KINDS.values())
    found = {kind: of_kind(kind, round(total * part / whole), random.Random(f"{seed} {kind}"))
             for kind, (_, part) in KINDS.items() if kind != "parse"}
    found["parse"] = of_kind("parse", total - sum(map(len, found.values())), random.Random(f"{seed} parse"))
    return {kind: found[kind] for kind in KINDS}
