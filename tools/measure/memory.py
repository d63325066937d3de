#!/usr/bin/env python3
"""The program's peak memory after 1,000, 100,000 and a million lines (mix.py).

usage: tools/measure/memory.py

The numbers are the kernel's for the process (/proc/PID/status, VmHWM: most memory resident at any time; VmPeak: most
addresses taken), read when every line has been answered and the input is still open.
"""
import re, subprocess, sys, threading
sys.dont_write_bytecode = True
from mix import PROGRAM, written


def feed(process, path):
    with open(path, "rb") as lines:
        while data := lines.read(1 << 16):
            process.stdin.write(data)
    process.stdin.flush()


def peak(count):
    process = subprocess.Popen([PROGRAM], stdin=subprocess.PIPE, stdout=subprocess.PIPE)
    threading.Thread(target=feed, args=(process, written(count)), daemon=True).start()
    for _ in range(count):
        process.stdout.readline()
    with open(f"/proc/{process.pid}/status") as status:
        found = dict(re.findall(r"^(VmHWM|VmPeak|VmStk):\s+(\d+) kB", status.read(), re.M))
    rest = process.communicate()[0]
    assert rest == b"" and process.returncode == 0
    return found


for count in (1000, 100000, 1000000):
    found = peak(count)
    print(f"{count:9,} lines answered: resident {found['VmHWM']} KB at most, of addresses {found['VmPeak']} KB, stack {found['VmStk']} KB", flush=True)
