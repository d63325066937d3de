#!/usr/bin/env python3
"""Lines a second of the program and of the Rust engine behind its driver, on the same lines.

usage: tools/measure/lines.py CHECKOUT [ROUNDS]

Three lots: 200,000 cheap lines (mix.py); those of them whose answer is the Rust's own, asked of its `analyze` without allowance or
overflow checks; and 2,000 lines as `tools/oracle/compare` draws them, whose searches go up to the allowance. Each round runs
both, one after the other, from a file to a file, and the answers must be the same. What is printed are the medians of the
rounds, by the clock and by processor time, which other work on the machine disturbs less.
"""
import os, random, resource, statistics, subprocess, sys, time
sys.dont_write_bytecode = True
from mix import FOLDER, PROGRAM, written
from driver import DRIVER, build_driver
from requests import of_kind


def used():
    usage = resource.getrusage(resource.RUSAGE_CHILDREN)
    return usage.ru_utime + usage.ru_stime


def timed(program, given, out):
    """Seconds by the clock, and of the processor."""
    with open(given, "rb") as lines, open(out, "wb") as answers:
        begun, before = time.time(), used()
        subprocess.run([program], stdin=lines, stdout=answers, check=True)
        return time.time() - begun, used() - before


def answers(path):
    """Without the driver's mark for document 01's own answers."""
    with open(path, "rb") as out:
        return out.read().replace(b"\t01\n", b"\n")


def measure(name, kind, lines, rounds):
    """The medians, printed, for a file of lines; the Rust is asked by requests of a kind. The driver's answers come back."""
    requests, ours, rusts = lines + ".requests", lines + ".ours", lines + ".rusts"
    with open(lines, "rb") as given, open(requests, "wb") as out:
        count = sum(1 for line in given if out.write(kind + b"\t" + line))
    times = [(timed(PROGRAM, lines, ours), timed(DRIVER, requests, rusts)) for _ in range(rounds)]
    assert answers(ours) == answers(rusts), "the answers differ"
    print(f"{name}, {count:,}:")
    for k, clock in enumerate(["clock", "processor"]):
        port, rust = (count / statistics.median(t[who][k] for t in times) for who in (0, 1))
        print(f"  by the {clock} the program {port:,.0f} a second, the Rust {rust:,.0f}: {port / rust:.2f} times", flush=True)
    return rusts


def rusts_own(lines, answered):
    """A file of the lines that the Rust answers without an exception of document 01's, and that read."""
    path = lines + "-own"
    with open(lines, "rb") as given, open(answered, "rb") as found, open(path, "wb") as out:
        out.writelines(line for line, answer in zip(given, found) if not answer.endswith(b"\t01\n") and not answer.startswith(b"E"))
    return path


def main():
    if len(sys.argv) not in (2, 3):
        sys.exit(__doc__)
    rounds = int((sys.argv + ["5"])[2])
    build_driver(sys.argv[1])
    cheap = written(200000)
    answered = measure("cheap lines", b"program", cheap, rounds)
    measure("those that the Rust answers by itself", b"line", rusts_own(cheap, answered), rounds)
    drawn = os.path.join(FOLDER, "lines-drawn")
    with open(drawn, "w", encoding="utf-8") as out:
        out.writelines(request.split("\t", 1)[1] + "\n" for request in of_kind("program", 2000, random.Random("lines")))
    measure("drawn lines", b"program", drawn, rounds)


main()
