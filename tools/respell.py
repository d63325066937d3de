#!/usr/bin/env python3
"""Brings the repository's own names in specs/ and proofs/ to the spelling of the installed Rattle, and what port.py leaves of the code's form.

usage: respell.py [--look]        at the top of the repository, once, after port.py; --look writes nothing and prints what would fall together

Words are joined by `_`, types are in upper camel case. Names that come from the code, from std or from the prover keep their spelling: in a
proof of a function only the names of laws, definitions and fields change. Comments and pages change where a name stands between backquotes.
The choice `if .. then .. else ..` of crates/base, whose parts wait, is `when .. then .. else ..`: the library has the other name for its own.
The definition `result` is `result_of`, since in a clause `result` is what the function returns. Of the code: the clauses that still bind
what is returned, the derives of types that are copied, and the line that lets the check try its tactics.
"""

import collections
import os
import re
import sys

TOKEN = re.compile(r"[^\s(){}.,;«»\"`|\\]+")
SIGNATURE = re.compile(r"\s*(?:abbrev |unfoldable |pub |\| )*([^\s:(){}]+)(?: \{[^}]*\})?(?: \([^:()]*:[^()]*\))* :(?: |$)(.*)")
HEAD = re.compile(r"\s*(?:abbrev |unfoldable |pub )*(?:record|data|module) ([^\s:(){}]+)")
USE = re.compile(r"^\s*(?:ghost )?(?:pub )?(?:use|open) (\S+?)\.\{([^}]*)\}", re.M)
GOAL = re.compile(r"(tie|goal)\.|\{M : Type|statement")
# names that would fall together with one of std's, or with one of the repository's own
OTHER = {
    "bit-or": "bit-bit_or",
    "bit-and": "bit-bit_and",
    "bit-xor": "bit-bit_xor",
    "free-choice": "is_free",
    "getD-bytes": "get_or_bytes",
    "none-getD": "none_get_or",
    "moves-Inv-loop": "moves_invariant_loop",
    "moves-μ-loop": "moves_measure_loop",
}
PAGES = ["README.md", "docs", "bench", "bindings", "tools"]


def files(root, *ends):
    for folder, dirs, names in os.walk(os.path.join(root, "crates")):
        dirs[:] = sorted(d for d in dirs if d != "out")
        for name in sorted(names):
            if name.endswith(ends):
                yield os.path.join(folder, name)


def read(path):
    with open(path, encoding="utf-8") as f:
        return f.read()


def written(path):
    """Whether a proof of one function, whose goals' names are the prover's."""
    return os.path.basename(path) == "Proof.antt"


def names_of(root):
    """The repository's own names, and those of them that are types."""
    own, types = set(), set()
    for path in files(root, ".antt"):
        for line in read(path).splitlines():
            m = SIGNATURE.match(line)
            if m and not (written(path) and GOAL.match(m.group(2))):
                own.add(m.group(1))
                if re.search(r"Type (\d|ℓ)$", m.group(2)):
                    types.add(m.group(1))
            m = HEAD.match(line)
            if m:
                own.add(m.group(1))
                types.add(m.group(1))
    return own, types


def camel(name):
    return "".join(w[:1].upper() + w[1:] for w in name.split("-"))


def snake(name):
    name = name.replace("-", "_")
    return re.sub(r"([a-z])([A-Z])", lambda m: m.group(1) + "_" + m.group(2).lower(), name)


def respelled(name, types):
    if name in OTHER:
        return OTHER[name]
    if not re.search(r"[A-Za-z]", name) or name.startswith("◌"):
        return name
    if re.fullmatch(r"[A-Z][A-Z0-9-]*", name):
        return name.replace("-", "_")
    if name[0].isupper():
        return camel(name) if name in types and "-" in name else name.replace("-", "_")
    return snake(name)


def outside(text, crates):
    """The names that a file imports from outside the repository."""
    found = set()
    for m in USE.finditer(text):
        parts = m.group(1).split(".")
        if not (parts[0] == "Rattle" and parts[1] in crates) or "declared" in parts:
            found.update(w.strip().split(" as ")[-1] for w in m.group(2).split(","))
    return found


def turn_code(text, change):
    """antt, or a clause: each token outside comments; in comments what stands between backquotes."""
    out = []
    for line in text.split("\n"):
        code, mark, comment = line, "", ""
        m = re.search(r"(^|\s)(--|//)(\s|$|/|!)", line)
        if m:
            at = m.start(2)
            code, comment = line[:at], line[at:]
        code = TOKEN.sub(lambda t: change(t.group(), code[t.start() - 1 : t.start()]), code)
        comment = re.sub(r"`([^`]+)`", lambda q: "`" + TOKEN.sub(lambda t: change(t.group(), "`"), q.group(1)) + "`", comment)
        out.append(code + comment)
    return "\n".join(out)


BOARD = re.compile(r"(?m)^use Rattle\.rules\.specs\.Board\.\{[^}]*\bresult\b")
BOUND = re.compile(r"ensures\* \{ λ r\. ⌜ r ≡ (.*?) ⌝ \}", re.S)


def definition_of_results(path, text):
    if path.endswith("crates/rules/specs/Board.antt") or BOARD.search(text):
        return "\n".join(line if line.lstrip().startswith("--") else re.sub(r"(?<![\w.-])result(?![\w-])", "result_of", line) for line in text.split("\n"))
    return text


def choice(text, is_code):
    """The choice's name and its uses, outside comments; in code, where a line of a clause has one."""
    out = []
    for line in text.split("\n"):
        m = re.search(r"(^|\s)(--|//)(\s|$|/|!)", line)
        at = m.start(2) if m else len(line)
        part = line[:at].replace("if◌then◌else◌", "when◌then◌else◌")
        if not is_code or re.search(r"\bif\b.*\bthen \(λ", part):
            part = re.sub(r"(?<![\w.'-])if(?![\w'◌-])", "when", part)
        out.append(part + line[at:])
    return "\n".join(out)


def form_of_code(path, text):
    text = re.sub(r"(ghost use Rattle\.rules\.specs\.Board\.\{[^}]*\b)result\b", r"\1result_of", text)
    text = BOUND.sub(lambda m: "ensures { result ≡ " + re.sub(r"\bresult\b", "result_of", m.group(1)) + " }", text)
    text = text.replace("#[derive(Drop)]", "#[derive(Clone, Copy)]")
    if os.path.basename(path) in ("lib.rt", "main.rt") and "#![tactic(auto)]" not in text:
        head = re.match(r"(//[^\n]*\n)*", text).end()
        text = text[:head] + "#![tactic(auto)]\n\n" + text[head:]
    return text


def main(argv):
    look = "--look" in argv
    root = "."
    crates = set(os.listdir("crates"))
    own, types = names_of(root)
    table = {n: respelled(n, types) for n in own}
    table = {n: m for n, m in table.items() if n != m}
    back = collections.defaultdict(set)
    for n in own:
        back[table.get(n, n)].add(n)
    for m, ns in sorted(back.items()):
        if len(ns) > 1:
            print("fall together:", m, sorted(ns))
    for path in files(root, ".antt", ".rt"):
        text = read(path)
        kept = outside(text, crates)
        rt = path.endswith(".rt")
        local = set()

        def change(word, before):
            if word in kept and before != ".":
                return word
            if word in table:
                return table[word]
            if rt or before in ".`" and before or "-" not in word or word not in local:
                return word
            return snake(word)

        if not rt and not written(path):
            bare = re.sub(r"(?m)(^|\s)--.*", "", text)
            local = {m.group() for m in TOKEN.finditer(bare) if re.match(r"[A-Za-z][\w₀-₉'-]*-", m.group()) and m.group() not in own and m.group() not in kept}
        new = turn_code(text, change)
        new = choice(form_of_code(path, new) if rt else definition_of_results(path, new), rt)
        words = {m.group() for m in TOKEN.finditer(text)}
        for n in words:
            c = change(n, " ")
            if c != n and c in words:
                print("in one file:", path, n, c)
        if new != text and not look:
            with open(path, "w", encoding="utf-8") as f:
                f.write(new)
    for page in PAGES:
        for folder, dirs, names in os.walk(page) if os.path.isdir(page) else [("", [], [page])]:
            for name in names:
                if name.endswith(".md") and name != "PORT.md":
                    path = os.path.join(folder, name)
                    text = read(path)
                    new = re.sub(r"`([^`\n]+)`", lambda q: "`" + TOKEN.sub(lambda t: table.get(t.group(), t.group()), q.group(1)) + "`", text)
                    if new != text and not look:
                        with open(path, "w", encoding="utf-8") as f:
                            f.write(new)
    if look:
        for n in sorted(table):
            if not re.fullmatch(r"[a-z0-9→'-]+", n):
                print(n, table[n])


main(sys.argv[1:])
