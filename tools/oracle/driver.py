"""The Rust engine's driver and the proved programs, built and run."""
import os, subprocess, sys

ROOT = os.path.dirname(os.path.dirname(os.path.dirname(os.path.abspath(__file__))))
sys.path.insert(0, os.path.join(ROOT, "tools"))
DRIVER = os.path.join(ROOT, "target/oracle/oracle-bin")
PROGRAMS = ["replay_game", "replay_notation", "replay_eval", "replay_endgame", "replay_search", "ultimattt"]


def build_driver(checkout):
    subprocess.run([os.path.join(ROOT, "tools/oracle/build.sh"), checkout], check=True, stdout=subprocess.DEVNULL)


def build_programs():
    """Proves and compiles what has changed since it was proved."""
    subprocess.run([os.path.join(ROOT, "tools/build"), *PROGRAMS], check=True, stdout=subprocess.DEVNULL)


def run(program, lines):
    """What a program writes for lines of input: one text a line."""
    given = "".join(line + "\n" for line in lines).encode()
    return subprocess.run([program], input=given, check=True, stdout=subprocess.PIPE).stdout.decode().split("\n")[:-1]


def run_proved(name, lines):
    return run(os.path.join(ROOT, "target/bin", name), lines)


def ask(requests):
    """The driver's answers."""
    answers = run(DRIVER, requests)
    assert len(answers) == len(requests), (len(requests), "requests", len(answers), "answers")
    for request, answer in zip(requests, answers):
        assert not answer.startswith(("BADREQ", "NOTUTF8")) and answer != "PANIC", (request, answer)
    return answers
