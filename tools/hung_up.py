#!/usr/bin/env python3
"""Runs the programs on a terminal that is hung up inside a line, so that a read fails after others that did not.

usage: tools/hung_up.py      once tools/build has built the programs; tools/failures calls it

The lines before it are answered, the cut one is not; a replay program gives no verdict. The status is 1 if a program does otherwise.
"""
import os, pty, subprocess, sys, tty

ROOT = os.path.dirname(os.path.dirname(os.path.abspath(__file__)))
REPLAYS = ["replay_game", "replay_notation", "replay_eval", "replay_endgame", "replay_search", "line_lengths"]


def ended(name, given):
    """What a program writes on standard output and on standard error."""
    read_end, write_end = pty.openpty()
    tty.setraw(write_end)
    program = subprocess.Popen([os.path.join(ROOT, "target/bin", name)], stdin=read_end, stdout=subprocess.PIPE, stderr=subprocess.PIPE)
    os.close(read_end)
    os.write(write_end, given)
    os.close(write_end)
    return program.communicate(timeout=60)


def first_and_half(name):
    """A list's first record, and half of its second."""
    with open(os.path.join(ROOT, "crates", name, "stdin"), "rb") as records:
        first, second = records.readline(), records.readline()
    return first + second[:len(second) // 2]


expected = {"ultimattt": (b"X 3\nX 3", b"E 2\n", b"ultimattt: reading failed, what came of the last line is not answered\n")}
for name in REPLAYS:
    expected[name] = (first_and_half(name), b"", b"reading failed: the list is not whole\n")
wrong = False
for name, (given, *said) in expected.items():
    found = ended(name, given)
    if list(found) != said:
        print(f"hung_up: {name}: {found}, not {tuple(said)}")
        wrong = True
sys.exit(wrong)
