"""Positions drawn at random, by the rules written out afresh: from play in several styles, and as texts that no play reaches."""

LINES = [(0, 1, 2), (3, 4, 5), (6, 7, 8), (0, 3, 6), (1, 4, 7), (2, 5, 8), (0, 4, 8), (6, 4, 2)]
LETTERS = "abcdefghijklmnop"


def other(side):
    return "O" if side == "X" else "X"


def has_line(marks, side):
    return any(all(marks[i] == side for i in line) for line in LINES)


def any_line(marks):
    return has_line(marks, "X") or has_line(marks, "O")


class Game:
    def __init__(self):
        self.cells = [["."] * 9 for _ in range(9)]
        self.states = ["."] * 9
        self.side, self.due, self.over = "X", None, "."

    def copy(self):
        g = Game()
        g.cells, g.states = [board[:] for board in self.cells], self.states[:]
        g.side, g.due, g.over = self.side, self.due, self.over
        return g

    def open(self):
        return [b for b in range(9) if self.states[b] == "."]

    def moves(self):
        if self.over != ".":
            return []
        return [(b, c) for b in self.open() if self.due in (None, b) for c in range(9) if self.cells[b][c] == "."]

    def play(self, board, cell):
        """Plays the move, or does nothing if it is refused."""
        if (board, cell) not in self.moves():
            return
        side = self.side
        self.cells[board][cell] = side
        if has_line(self.cells[board], side):
            self.states[board] = side
        elif "." not in self.cells[board]:
            self.states[board] = "#"
        self.due = cell if self.states[cell] == "." else None
        if has_line(self.states, side):
            self.over = side
        elif "." not in self.states:
            self.over = "#"
        self.side = other(side)

    def wins_board(self, move):
        board, cell = move
        marks = self.cells[board]
        return any(cell in line and all(i == cell or marks[i] == self.side for i in line) for line in LINES)

    def empty_cells(self):
        return sum(self.cells[b].count(".") for b in self.open())

    def text(self):
        marks = "".join("@" if self.due == b else self.states[b] for b in range(9))
        return f"{self.side};{marks};" + "/".join("".join(board) for board in self.cells)


def letters(move):
    return LETTERS[move[0]] + LETTERS[move[1]]


def any_move(rng, size):
    return rng.randrange(size), rng.randrange(size)


def preferred(rng, g, style):
    """The moves that a style chooses from: draw and long win no board while they can, win does where it can."""
    moves = g.moves()
    if style == "any":
        return moves
    chosen = [m for m in moves if g.wins_board(m) == (style == "win")]
    if style == "long" and chosen and rng.random() >= .9:
        return moves
    return chosen or moves


def playout(rng, count=None, refuse=0.0, style="any"):
    """The moves tried and the game after them: count accepted ones, or to the end; refuse of them are drawn blindly."""
    g, tried, played = Game(), [], 0
    while count is None or played < count:
        if rng.random() < refuse:
            move = any_move(rng, 10) if rng.random() < .7 else any_move(rng, 16)
        else:
            moves = preferred(rng, g, style)
            if not moves:
                break
            move = rng.choice(moves)
            played += 1
        tried.append(letters(move))
        g.play(*move)
    for _ in range(rng.randrange(4) if refuse else 0):
        move = any_move(rng, 10)
        tried.append(letters(move))
        g.play(*move)
    return "".join(tried), g


def after(rng, count, *styles):
    return playout(rng, count, style=rng.choice(styles))[1]


def late(rng, least, most):
    """A position from play, unfinished, with so many empty cells in open boards."""
    while True:
        g, want, style = Game(), rng.randint(least, most), rng.choice(["any", "long", "win"])
        while g.moves():
            if least <= g.empty_cells() <= want:
                return g
            moves = g.moves()
            if style == "long":
                moves = [m for m in moves if not g.wins_board(m)] or moves
            g.play(*rng.choice(moves))


def sound(rng):
    """Sound in document 01's sense, though play seldom reaches it."""
    while True:
        g = Game()
        for b in range(9):
            kind, density = rng.random(), rng.random()
            while True:
                g.cells[b] = [rng.choice("XO") if rng.random() < density else "." for _ in range(9)]
                if kind >= .45:
                    g.states[b] = rng.choice("XO#")
                    break
                if "." in g.cells[b] and not any_line(g.cells[b]):
                    break
                density *= .95
        if any_line(g.states) or not g.open():
            continue
        g.side = rng.choice("XO")
        boards = g.open()
        g.due = rng.choice(boards) if rng.random() < .6 else None
        return g


def critical(rng):
    """Sound, with boards won two in a line and open boards one short of a line."""
    while True:
        g = Game()
        g.side = rng.choice("XO")
        for b in range(9):
            if rng.random() < .45:
                g.states[b] = rng.choice("XO") if rng.random() < .9 else "#"
                g.cells[b] = [rng.choice("XO.") for _ in range(9)]
                continue
            for _ in range(200):
                density = rng.choice([.3, .6, .8, .9])
                g.cells[b] = [rng.choice("XO") if rng.random() < density else "." for _ in range(9)]
                if "." in g.cells[b] and not any_line(g.cells[b]):
                    break
            else:
                g.cells[b] = ["."] * 9
        if any_line(g.states) or not g.open():
            continue
        boards = g.open()
        g.due = rng.choice(boards) if rng.random() < .85 else None
        two = (sorted(g.states[i] for i in line) for line in LINES)
        if rng.random() < .7 and not any(marks in ([".", "X", "X"], [".", "O", "O"]) for marks in two):
            continue
        return g


def one_short(marks, side):
    """The places that would complete a line of a side."""
    for line in LINES:
        left = [i for i in line if marks[i] == "."]
        if len(left) == 1 and all(marks[i] == side for i in line if i not in left):
            yield left[0]


def critical_boards(g, side):
    return {b for b in one_short(g.states, side) if any(True for _ in one_short(g.cells[b], side))}


def cornered(rng):
    """Sound, where each square sends the other side to a board that it wins or that is closed, or nearly so."""
    while True:
        g = critical(rng)
        if g.due is None:
            continue
        own, others = critical_boards(g, g.side), critical_boards(g, other(g.side))
        closed = set(range(9)) - set(g.open())
        free = [{c for c in range(9) if board[c] == "."} for board in g.cells]
        if own and g.due not in own and any(not free[b] - (closed | own) for b in free[g.due] - closed):
            return g
        if others and g.due not in others and not free[g.due] - (closed | others):
            return g


def lined(rng):
    """Unsound: the side to move has a line of boards."""
    g = sound(rng)
    for b in rng.choice(LINES):
        g.states[b] = g.side
    if g.due is not None and g.states[g.due] != ".":
        g.due = None
    return g


def stuck(rng):
    """Unsound: full boards still in play, so often no move, or none a move later."""
    g = sound(rng)
    boards = g.open()
    for b in rng.sample(boards, rng.randint(1, len(boards))):
        g.cells[b] = [rng.choice("XO") for _ in range(9)]
    g.due = rng.choice(boards + [None])
    return g


def unsound_text(rng):
    """A text that reads, of any marks: mostly unsound, at times finished."""
    if rng.random() < .25:
        return stuck(rng).text()
    density = rng.random()
    cells = "/".join("".join(rng.choice("XO") if rng.random() < density else "." for _ in range(9)) for _ in range(9))
    rng.random()
    marks = rng.choice(["XO#.@", ".@", "...XO#", "........XO#@", "X.", "O.", "#.", "#", "X", "."])
    overall = "".join(rng.choice(marks) for _ in range(9))
    return rng.choice("XO") + ";" + overall + ";" + cells


def any_text(rng):
    """A text that reads: seven in ten from play."""
    kind = rng.random()
    if kind < .7:
        return after(rng, rng.randrange(0, 75), "any", "any", "win", "long", "draw").text()
    return sound(rng).text() if kind < .85 else unsound_text(rng)


def pair(rng):
    """A sound position and a copy changed in a few places, half of them such that the two are still equivalent."""
    kind, g = rng.random(), sound(rng)
    h = g.copy()
    for _ in range(rng.choice([0, 1, 1, 2, 4])):
        change, b = rng.random(), rng.randrange(9)
        if change < .4 or (change < .9 and rng.random() < .5):
            closed = [x for x in range(9) if h.states[x] != "."]
            b = rng.choice(closed) if closed else b
            h.cells[b][rng.randrange(9)] = rng.choice("XO.")
        elif change < .5:
            h.cells[b][rng.randrange(9)] = rng.choice("XO.")
        elif change < .9:
            h.states[b] = rng.choice("XO#.")
        elif change < .95:
            h.side = rng.choice("XO")
        else:
            h.due = rng.choice([None] + list(range(9)))
    if kind < .3:   # closed on one side only, with unlike cells there
        b = rng.choice(g.open())
        h.states[b] = rng.choice("XO#")
        h.cells[b][rng.randrange(9)] = rng.choice("XO.")
        if h.due == b:
            h.due = g.due = None
        if rng.random() < .5:
            g, h = h, g
    return g.text(), h.text()


def damaged(rng, text):
    """A text with one to three faults."""
    t = list(text)
    for _ in range(rng.choice([1, 1, 1, 2, 3])):
        fault = rng.randrange(9)
        at = rng.randrange(len(t) + 1) if t else 0
        last = min(at, len(t) - 1)
        if fault == 0 and t:
            del t[last]
        elif fault == 1:
            t.insert(at, rng.choice("XO.#@/;x o0"))
        elif fault == 2 and t:
            t[last] = rng.choice("XO.#@/;xo 9")
        elif fault == 3:
            t = t[:at]
        elif fault == 4:
            t += rng.choice(["tail", "/", "/.........", "X", " ", "é", "." * 40, ";", "@"])
        elif fault == 5 and len(t) > 12:
            t[2 + rng.randrange(9)] = rng.choice(["é", "€", "x", ";", "/", " "])
        elif fault == 6 and len(t) > 12:
            t[0] = rng.choice(["x", "Y", "", "XX", " X", ".", "é"])
        elif fault == 7 and len(t) > 12:
            t[12 + rng.randrange(len(t) - 12)] = rng.choice(["é", "#", "@", " ", "/", ".", ";"])
        elif fault == 8 and len(t) > 13:   # a mark of two bytes, the section's length kept
            at = 2 + rng.randrange(8)
            t[at:at + 2] = ["é"]
    return "".join(t)


def damaged_section(rng, text):
    """A text with a section too short, too long, lacking or doubled, or with wrong slashes."""
    parts = text.split(";")
    fault = rng.randrange(6)
    if fault == 0:
        parts[1] = parts[1][:rng.randrange(9)]
    elif fault == 1:
        parts[1] += rng.choice(".X@")
    elif fault == 2:
        parts[2] = parts[2][:rng.randrange(len(parts[2]))]
    elif fault == 3:
        parts = parts[:rng.randrange(3)]
    elif fault == 4:
        parts.append(rng.choice(["", "x", parts[2]]))
    else:
        parts[2] = parts[2].replace("/", rng.choice(["", "|", "//"]), rng.randrange(1, 9))
    return ";".join(parts)
