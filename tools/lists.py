"""Records of the lists that the replay programs read, made from requests and the Rust's answers (docs/ORACLE.md).

`RECORDS` says of each list which kinds of requests it holds, in its order. A list has a record to a line; a stored list ends with
damaged ones (damaged.py). Of game and notation a record is decimal numbers parted by single blanks:

  1 k m.. r..                       k moves tried from the empty board, and what each was answered: 0, or 9 to 13
  2 POSITION k m.. r..              the same from a position
    then x o x o x o hash fresh zobrist state player next bound open apart n m..
  3 POSITION POSITION a b           whether each is equivalent to the other
  4 n byte.. number offset length   a text that is refused
  5 n byte.. byte*101 hash zobrist state bound   a text that is read, with the text that its game is rendered as
  6 n byte.. number byte move       a move's text: 0, 7 or 8, the byte that 8 names, the move
  7 byte set                        from_byte: 0 for none
  8 byte byte set                   merge
  9 k m.. byte*101                  k moves tried from the empty board, and the text of the game at their end
  10 POSITION cell*81 state*9 bits  the cells (empty 0, X 1, O 2) and states of boards 0 to 8, and `drawbits`
  11 board cell bits                `from_coords`
  12 byte x o draw                  a set: whether X has won, whether O has (1 for yes), and the byte of `Status::draw`

POSITION is: side (X 0, O 1), next board (255 for free choice), x and o of each row, x and o of the states, in play 0,
drawn 1, won by X 2, won by O 3. apart is 1 where the game is finished: there the Rust's list of moves differs from document 01's,
which is empty and the one expected. In 4 a text of over 256 bytes, or one on which the Rust panics, has document 01's answer
(1, or 5 at the mark). In 6 the byte is 0 unless the number is 8, and the move 255 unless it is 0.

Of eval it is three fields parted by tabs: a position's text; the draw winner, X, O or - for none; the evaluation, a
decimal number with a minus before it if it is below 0.

Of endgame it is two fields parted by tabs: a position's text; numbers parted by blanks:

  refusal status attacker_critical defender_critical both_critical unwinnable prove_attacker prove_defender
    then of each listed move: move answer status

refusal is 0 for an analysis, or 14; answer is 0 for a move that is judged, 10 or 14 for a refusal. A refusal has
the full set, and 14 no counts. The moves are those that the Rust lists: what play accepts, and of a finished game what it would
accept if the game went on. Where it lists none, as where it panics (in an unfinished position with a side's line of boards, or with no
open board and a free choice), the first cell of the first board is judged.

Of search a record is one memory and the searches that use it, one after the other; fields parted by tabs: the table's entries;
the draw winner; the allowance; the responses at the start, three numbers each (side that made the previous
move, X 0 and O 1; previous move; response), or nothing; then of each search the position's text, the depth, and numbers:

  ending count depth SCORE responses response_count table entry_count m*depth, then of each depth
    depth SCORE visited terminal cuts tt_hit tt_suffice

ending is 0 for whole, 1 for stopped, 15 to 18 for a refusal. SCORE is 1 if it is below 0, else 0, and the size.
responses and table are the digests of the memory after the search (FNV-1a, 64 bits: the 256 responses to X's moves and those to
O's, a byte each; the table's words, the lowest byte first), the counts say how many there are. The count of a
search that the driver does not count is the sum of its depths' visited.
"""
import re

ERRORS = {"ok": 0, "OutOfBounds": 9, "GameOver": 10, "WonBoard": 11, "WrongBoard": 12, "NotEmpty": 13}
STATES = {"InPlay": 0, "Drawn": 1, "WonX": 2, "WonO": 3}
KINDS = {"MissingSection": 2, "BadPlayer": 3, "TooFewSquares": 4, "BadBoard": 5, "TooShort": 6}
LINES = [(0, 1, 2), (3, 4, 5), (6, 7, 8), (0, 3, 6), (1, 4, 7), (2, 5, 8), (0, 4, 8), (6, 4, 2)]
LONGEST = 4096   # bytes of a record that the programs read


def letters(text):
    return [16 * (ord(text[i]) - 97) + ord(text[i + 1]) - 97 for i in range(0, len(text), 2)]


def position(text):
    """The numbers of a position text that reads."""
    side, overall, cells = text.split(";")
    rows = [0] * 6
    for board, part in enumerate(cells[:89].split("/")):
        for cell, mark in enumerate(part):
            if mark in "XO":
                rows[2 * (board // 3) + "XO".index(mark)] |= 1 << (9 * (board % 3) + cell)
    x = sum(1 << b for b in range(9) if overall[b] in "X#")
    o = sum(1 << b for b in range(9) if overall[b] in "O#")
    other = (o & ~x, x & ~o)["XO".index(side)]
    if any(all(other >> i & 1 for i in line) for line in LINES):
        state = (3, 2)["XO".index(side)]
    else:
        state = 1 if x | o == 0x1FF else 0
    due = overall.rfind("@")
    return ["XO".index(side), 255 if due < 0 else due] + rows + [x, o, state]


def fields(answer):
    return dict(re.findall(r"(\w+)=(\S+)", answer))


def reached(f):
    """The numbers of a game, and its list of moves."""
    rows = [int(n, 16) for row in f["rows"].split(",") for n in row.split(".")]
    due = 255 if f["next"] == "-" else int(f["next"])
    hashes = [int(f["hash"]), int(f["fresh"]), int(f["zobrist"])]
    numbers = hashes + [STATES[f["state"]], "XO".index(f["player"]), due, int(f["bound"]), int(f["open"])]
    moves = letters(f["moves"]) if f["state"] == "InPlay" and f["moves"] != "-" else []
    return rows + numbers + [int(f["state"] != "InPlay"), len(moves)] + moves


def tried(text, answer):
    moves, results = letters(text), answer.split(" ")[0]
    results = [] if results == "-" else [ERRORS[r] for r in results.split(",")]
    assert len(results) == len(moves)
    return [len(moves)] + moves + results + reached(fields(answer))


def played(request, answer):
    return [1] + tried(request[1], answer)


def played_from(request, answer):
    return [2] + position(request[1]) + tried(request[2], answer)


def equivalence(request, answer):
    return [3] + position(request[1]) + position(request[2]) + [int(word == "true") for word in answer.split()]


def as_bytes(text):
    data = text.encode()
    return [len(data), *data]


def bad_mark(text):
    """Where the first bad overall mark stands."""
    side, overall, _ = text.encode().split(b";")
    return len(side) + 1 + next(i for i, c in enumerate(overall) if c not in b"XO#@.")


def read(request, answer):
    text = request[1]
    if len(text.encode()) > 256:
        return [4, *as_bytes(text), 1, 0, 0]
    if answer.startswith("PANIC"):
        return [4, *as_bytes(text), 5, bad_mark(text), 1]
    if answer.startswith("ERR"):
        _, kind, offset, length = answer.split()
        return [4, *as_bytes(text), KINDS[kind], int(offset), int(length)]
    f = fields(answer)
    return [5, *as_bytes(text), *f["render"].encode(), int(f["hash"]), int(f["zobrist"]), STATES[f["state"]], int(f["bound"])]


def move_text(request, answer):
    what, *number = answer.split()
    if what == "ok":
        return [6, *as_bytes(request[1]), 0, 0, int(number[0])]
    if what == "BadLength":
        return [6, *as_bytes(request[1]), 7, 0, 255]
    return [6, *as_bytes(request[1]), 8, chr(int(number[0])).encode()[0], 255]


def status(request, answer):
    value = 0 if answer == "none" else int(answer)
    return [8 if request[0] == "merge" else 7, *request[1:], value]


def looked_up(request, answer):
    f = fields(answer)
    states = [STATES[state] for state in f["states"].split(",")]
    return [10] + position(request[1]) + [int(cell) for cell in f["cells"]] + states + [int(f["drawbits"])]


def move_bits(request, answer):
    return [11, *request[1:], answer]


def won(request, answer):
    return [12, request[1], *answer.split()]


def rendered(request, answer):
    moves = letters(request[1])
    return [9, len(moves)] + moves + list(fields(answer)["render"].encode())


def evaluation(request, answer):
    assert re.fullmatch("-?[0-9]+", answer), answer
    return [request[1], request[2], answer]


def endgame(request, answer):
    f = fields(answer)
    moves = re.findall(r"([a-p]{2}):(\d+)", f.get("moves", "")) or [("aa", None)]
    refusal = 10 if f["over"] == "1" else 14 if f["sound"] == "0" else 0
    if refusal == 14:
        numbers = [14, 7] + [0] * 6
    else:
        numbers = [0, int(f["status"])] + [int(n) for n in f["stats"].split(",")]
    for move, found in moves:
        numbers += [letters(move)[0], refusal, 7 if refusal else int(found)]
    return [request[1], " ".join(map(str, numbers))]


def digest(data):
    h = 0xCBF29CE484222325
    for byte in data:
        h = (h ^ byte) * 0x100000001B3 % 2**64
    return h


def digest_of_zeros(count):
    """A zero byte only multiplies."""
    return 0xCBF29CE484222325 * pow(0x100000001B3, count, 2**64) % 2**64


def score(text):
    return [int(text.startswith("-")), text.lstrip("-")]


def responses(text):
    """The numbers of the responses that a search begins with."""
    return [n for a in text.split(",") if a for n in ("XO".index(a[0]), *letters(a[1:]))]


def refusal(depth, allowance, entries):
    if not 1 <= depth <= 81:
        return 15
    if not 1 <= allowance <= 1000000000:
        return 16
    return 17 if entries > 65536 else 0


def refused(number, entries, responses):
    """Document 01's answer: nothing entered, the memory as it was."""
    memory = bytearray([255] * 512)
    for k in range(0, len(responses), 3):
        memory[256 * responses[k] + responses[k + 1]] = responses[k + 2]
    return [number, 0, 0, 0, 0, digest(memory), 512 - memory.count(255), digest_of_zeros(24 * entries), 0]


def found(answer):
    """The numbers of a search from the driver's answer."""
    f = fields(answer)
    stats = [w for w in answer.split() if "=" not in w][0]
    stats = [] if stats == "-" else [d.split(",") for d in stats.split(";")]
    ending = 0 if f.get("stopped", "0") == "0" else 1 if stats else 18
    moves = [255 if m == "--" else letters(m)[0] for m in re.findall("..", f["pv"])] if stats else []
    assert len(moves) == len(stats)
    count = f.get("count", sum(int(d[2]) for d in stats))
    last = score(stats[-1][1] if stats else "0")
    memory = [int(f["resp"], 16), f["nresp"], int(f["table"], 16), f["used"]]
    return [ending, count, len(stats), *last, *memory, *moves, *(n for d in stats for n in (d[0], *score(d[1]), *d[2:]))]


def searches(entries, draw, allowance, begun, asked):
    """One memory, and (position, depth, answer) of each search that uses it."""
    record = [entries, draw, allowance, " ".join(map(str, begun))]
    for text, depth, answer in asked:
        number = refusal(int(depth), int(allowance), int(entries))
        numbers = refused(number, int(entries), begun) if number else found(answer)
        record += [text, depth, " ".join(map(str, numbers))]
    return record


def searched(request, answer):
    what, *given = request
    if what == "searches":
        entries, draw, *asked = given
        return searches(entries, draw, 10**9, [], zip(asked[::2], asked[1::2], answer.split(" | "), strict=True))
    text, depth, entries, draw, *more = given
    allowance = more.pop(0) if what == "stop" else 10**9
    return searches(entries, draw, allowance, responses("".join(more)), [(text, depth, answer)])


# Of each list what parts the fields of a record, and the kinds of requests with what makes a record of one.
RECORDS = {
    "game": (" ", {"play": played, "from": played_from, "hash": played_from, "equiv": equivalence,
                   "cells": looked_up, "coords": move_bits}),
    "notation": (" ", {"parse": read, "move": move_text, "status": status, "play": rendered, "won": won}),
    "eval": ("\t", {"eval": evaluation}),
    "endgame": ("\t", {"endgame": endgame}),
    "search": ("\t", dict.fromkeys(["search", "searches", "stop", "long", "refused"], searched)),
}


def record(name, kind, request, answer):
    """The line of list `name` for a request of a kind and its answer."""
    part, kinds = RECORDS[name]
    return part.join(map(str, kinds[kind](request.split("\t"), answer)))

EMPTY = "X;.........;" + "/".join(["." * 9] * 9)
WINS = "X;XX@......;XXX....../XXX....../XX......." + "/........." * 6
WON = "O;XXX......;" + "/".join(["." * 9] * 9)
UNSOUND = "X;XXX......;" + "/".join(["." * 9] * 9)
FIRST = "XOD 81 1 16 82 ee"
# Lines of the program with the answers that document 01's words give: its four examples, and edges of a line.
DOCUMENT = [
    (EMPTY + " 1", FIRST),
    (WINS + " 3", "X 7 1 1152921504606846976 8 cc"),
    (WON + " 5", "XOD 0 1 -1152921504606846976 1 -"),
    ("X 3", "E 2"),
    ("", "E 19"),                              # an empty line is a line
    (EMPTY, "E 19"),                           # no blank
    (EMPTY + " ", "E 19"),
    (EMPTY + " 1 ", "E 19"),
    (EMPTY + " 100", "E 19"),
    (EMPTY + " 001", "E 19"),
    (EMPTY + " 1\r", "E 19"),
    (EMPTY + "\t1", "E 19"),                   # a tab is no blank
    ("X 100", "E 19"),                         # 19 before 2
    (EMPTY + " 0", "E 15"),
    (EMPTY + " 82", "E 15"),
    (EMPTY + " 01", FIRST),
    (EMPTY + "   1", FIRST),                   # the last blank parts; what follows the ninth board is ignored
    (WINS + " 81", "X 7 1 1152921504606846976 8 cc"),
    (" 1", "E 2"),
    ("X 0", "E 2"),                            # 2 before 15
    (UNSOUND + " 1", "E 14"),
    (UNSOUND + " 0", "E 14"),                  # 14 before 15
    (EMPTY + "." * 155 + " 1", FIRST),         # 256 bytes of position
    (EMPTY + "." * 156 + " 1", "E 1"),
    (EMPTY + "." * 156 + " 0", "E 1"),         # 1 before 15
    (EMPTY + "." * 4897 + " 1", "E 1"),        # 5,000 bytes
    ("X" * 5000, "E 19"),
    (EMPTY + " " * 4898 + "x", "E 19"),
]

READ = 65536   # bytes of the program's reads, `io::large_buffer`
# Lines cut by the ends of reads: the parts that come by one read each, the whole line's answer, and what the last part alone would be
# answered.
CUT = [
    ([WINS[:60], WINS[60:] + " 3"], "X 7 1 1152921504606846976 8 cc", "E 2"),
    (["X" * 100, "X" * (READ - 1) + " ", "1"], "E 1", "E 19"),      # a read of which no byte ends a line
]


def cut_lines(before):
    """The lines of `CUT`, each after one that fills a read up to it, to be put after other lines."""
    at, lines = sum(len(line.encode()) + 1 for line, _ in before), []
    for parts, answer, alone in CUT:
        assert answer != alone and all(len(part) == READ for part in parts[1:-1])
        fill = -(at + 1 + len(parts[0])) % READ
        fill += READ if fill < 259 else 0
        lines += [("X" * (fill - 2) + " 1", "E 1"), ("".join(parts), answer)]
        at += fill + 1 + sum(map(len, parts)) + 1
    return lines


def program_list(lines):
    """The program's lines and its answers, lines that are cut among them; the last has no line feed."""
    lines = lines + cut_lines(lines)
    text = "\n".join(line for line, _ in lines)
    data = text.encode()
    ends = range(READ, len(data), READ)
    assert len(ends) > 2 and all(b"\n" not in data[end - 1:end + 1] for end in ends), "a read ends where no line is cut"
    return text, "".join(answer + "\n" for _, answer in lines)
