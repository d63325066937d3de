#!/usr/bin/env python3
"""The stack that the program needs: the smallest `ulimit -s` with which it answers, and bytes a ply from its code.

usage: tools/measure/stack.py

The lines: the empty board, a late position from play, and the deepest that deep.py found within the allowance. Last, the stack in
which `replay_search` agrees with its whole list, tables on. Addresses are not drawn at random and the environment is empty, so
that a second run gives the same numbers.
"""
import os, re, subprocess, sys
sys.dont_write_bytecode = True
from mix import PROGRAM, ROOT

LINES = {
    "the empty board": "X;.........;" + "/".join(["." * 9] * 9),
    "a late position": "X;..OX.@.X.;.OXOXO..O/.OOX.X.OX/O.XOOOXX./X.OXXX.X./X.OOX.OO./X.XOO.XO./.O.O.OXXO/XXX...X../.X.X.OOO.",
    "deep, first": "O;....@....;XO.OX.OXO/.OXXXOO../OXO..XXOX/O.OOX..OX/X.OO.XXO./O.XXXOO.X/.OX.XOOX./O..OXXXOX/OX.XXO.OX",
    "deep, second": "O;........@;XOXXO..XO/OXO.OXX../X.XO..X.O/O.O.XOXOX/.XOOXXXO./XOXO...XO/X..OOXXXO/.XOXX.OOX/.XOO.XXO.",
    "deep, third": "X;.....@...;OXOX..XOX/.OXXOOO.X/.XO.OXXO./OX.XOO.OX/O.X.OOOX./OXOX...OX/.OOOXX.O./X.OOO..OX/.XOOX.O.X",
}


def written(program, given, kilobytes):
    """What a program writes in so large a stack, or nothing if that does not suffice."""
    limited = ["setarch", "-R", "bash", "-c", f"ulimit -c 0 -s {kilobytes} && exec '{program}'"]
    run = subprocess.run(limited, input=given, stdout=subprocess.PIPE, stderr=subprocess.DEVNULL, env={"PATH": "/usr/bin:/bin"})
    return run.stdout.decode().strip() if run.returncode == 0 else ""


def least(program, given):
    """The smallest stack, in KB, in which a program writes what it writes in a large one."""
    low, high, whole = 8, 8192, written(program, given, 8192)
    while high - low > 1:
        middle = (low + high) // 2
        low, high = (low, middle) if written(program, given, middle) == whole else (middle, high)
    return high


def frames():
    """Of each function of the search in the program: what a call puts on the stack. Its head ends at the first jump or call."""
    code = subprocess.run(["objdump", "-d", "--no-show-raw-insn", PROGRAM], stdout=subprocess.PIPE, check=True).stdout.decode()
    for function in code.split("\n\n"):
        name = re.match(r"\s*[0-9a-f]+ <(minimax::.*)>:", function)
        if name:
            head = re.split(r"\t(?:j|call)", function)[0]
            taken = sum(int(n, 16) for n in re.findall(r"sub +\$0x([0-9a-f]+),%rsp", head))
            yield name.group(1), 8 + 8 * len(re.findall(r"\tpush ", head)) + taken


for name, size in frames():
    print(f"{name}: {size:,} bytes a call")
for name, text in LINES.items():
    for depth in (1, 8, 81):
        line = f"{text} {depth}\n".encode()
        words = written(PROGRAM, line, 8192).split()
        print(f"{name}, depth limit {depth}: whole depth {words[2]}, {words[4]} positions, a line of {len(words[5]) // 2} moves, "
              f"stack {least(PROGRAM, line)} KB", flush=True)
with open(os.path.join(ROOT, "crates/replay_search/stdin"), "rb") as stored:
    print(f"replay_search on its list: stack {least(os.path.join(ROOT, 'target/bin/replay_search'), stored.read())} KB")
