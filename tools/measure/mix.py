"""The lines that the program is measured on: cheap ones, such that reading and answering weigh as much as searching."""
import os, random, sys

ROOT = os.path.dirname(os.path.dirname(os.path.dirname(os.path.abspath(__file__))))
sys.path.insert(0, os.path.join(ROOT, "tools/oracle"))
from positions import any_text, damaged, damaged_section

PROGRAM = os.path.join(ROOT, "target/bin/ultimattt")
FOLDER = os.path.join(ROOT, "target/measure")
DISTINCT = 20000


def one(rng):
    """Of 100 lines 70 positions with depth 1 to 3, 20 damaged texts, 9 depths that are none, 1 line of 300 to 10,000 bytes."""
    kind, text = rng.random(), any_text(rng)
    if kind < .7:
        return f"{text} {rng.randrange(1, 4)}"
    if kind < .9:
        return f"{damaged(rng, text) if rng.random() < .6 else damaged_section(rng, text)} 1"
    if kind < .99:
        return text + rng.choice([" 0", " 82", " 100", " x", "", " "])
    return text + rng.choice(". ") * rng.randrange(200, 9900) + rng.choice([" 1", "1"])


def block():
    """As many lines as are drawn."""
    rng = random.Random(1)
    return "".join(one(rng) + "\n" for _ in range(DISTINCT)).encode()


def written(count):
    """A file of so many lines, the drawn ones over and over."""
    os.makedirs(FOLDER, exist_ok=True)
    path, lines = os.path.join(FOLDER, f"lines-{count}"), block().split(b"\n")[:-1]
    with open(path, "wb") as out:
        for at in range(0, count, DISTINCT):
            out.write(b"".join(line + b"\n" for line in lines[:count - at]))
    return path
