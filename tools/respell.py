#!/usr/bin/env python3
"""Brings the names of this repository's definitions and lemmas to today's spelling, once, after port.py.

usage: tools/respell.py [--list]      at the top of the repository; --list prints the names and writes nothing

A definition, a lemma, a record's field and a constructor are in snake case; types, facts and modules keep their camel case. A dash stays where it joins
two names of functions, or a type to a name (`filter-add_new`, `Split-append`), and is `_` elsewhere. A lemma whose new name something else has already
ends in `_lem`. What the toolchain makes of a function's source (goals, steps of `c`) is left alone. Texts that name such things (.md, edits) follow.
"""
import os
import re
import subprocess
import sys

TOKEN = r"[^\s(){}.;,@\"«»`]+"
SIGNATURE = re.compile(
    r"(?m)^ *(?:(?:abbrev|unfoldable|pub|data|record) +)*([^\s(){}.;,@\"]+)"
    r"(?: +[({][^:\n]*:[^:\n]*[)}])* +:(?= )"
)
RESERVED = set("use mod pub module where let in data record open unfolding abbrev unfoldable ruleset infix infixl infixr elim do as".split())
# Names of the library that lemmas name, and words that are no names though something is called so.
LIBRARY = set(
    "length append map filter take drop set get_or leb ltb eqb min max sum fold reverse concat replicate member cond not suc pred mul add sub div mod pow".split()
)
WORDS = set("at in is of none some to from by or and no be on it has as one two each every first last next least most more less here there only same".split())


def read(path):
    with open(path, encoding="utf-8") as f:
        return f.read()


def files():
    names = subprocess.run(["git", "ls-files"], capture_output=True, text=True, check=True).stdout.split("\n")
    return [n for n in names if n and os.path.isfile(n) and not os.path.islink(n)]


def is_function_proof(path):
    return re.search(r"^crates/\w+/proofs/.+/(Proof|Answers|Invariants)(/.*)?(\.antt)?$", path) is not None


def declared(path, text):
    for m in SIGNATURE.finditer(text):
        name = m[1]
        if name in RESERVED:
            continue
        rest = text[m.end() : m.end() + 80]
        made = is_function_proof(path) and re.match(r" *(tie|goal)\.", rest)
        yield name, bool(made)


def snake(segment):
    if segment[:1].isupper():
        return segment
    return re.sub(r"(?<=[a-z0-9])([A-Z])", lambda m: "_" + m[1].lower(), segment)


def split(name):
    return [s for s in name.split("-")]


def respelled(name, known):
    # The names that are made of signs keep them.
    segments = [snake(s) for s in split(name)]
    if len(segments) == 1:
        return segments[0]
    if any(s == "" for s in segments):
        return name
    units, i = [], 0
    while i < len(segments):
        for j in range(len(segments), i, -1):
            word = "_".join(segments[i:j])
            if word in known and not (j == i + 1 and word in WORDS):
                units.append((word, True))
                i = j
                break
        else:
            sign = not re.fullmatch(r"[A-Za-z0-9_']+", segments[i])
            units.append((segments[i], segments[i][:1].isupper() or sign))
            i += 1
    out = units[0][0]
    for (_, a), (b, both) in zip(units, units[1:]):
        joins = a and both or b[:1].isupper() or out.split("-")[-1][:1].isupper()
        out += ("-" if joins else "_") + b
    return out


def table(texts):
    names, made = set(), set()
    for path, text in texts.items():
        if path.startswith("crates/") and path.endswith(".antt"):
            for name, is_made in declared(path, text):
                (made if is_made else names).add(name)
    plain = {snake(n) for n in names if "-" not in n}
    known = plain | LIBRARY
    # What else a name could meet: names in proofs and clauses that stand behind no dot, parameters and fields of the source.
    tokens = set()
    for path, text in texts.items():
        text = re.sub(r"(?m)(^|\s)(--|//)(\s.*)?$", "", text)
        if path.startswith("crates/") and path.endswith(".antt"):
            text = re.sub(r"(?m)^use [^\s{]*", "", text)
            tokens.update(re.findall(r"(?<![^\s(){};,@\"«»`])" + TOKEN, text))
        elif path.startswith("crates/") and path.endswith(".rt"):
            tokens.update(re.findall(r"(?<![\w.:])(\w+): ", text))
    rows, taken = {}, {}
    # Definitions come first: a lemma gives way to them.
    for name in sorted(names, key=lambda n: ("-" in n, n)):
        if re.search(r"-spec$", name) and "_spec" not in name:
            new = name.replace("-", "_")
        elif re.fullmatch(r"[a-z][A-Za-z0-9']*", name) or "-" in name:
            new = respelled(name, known)
        else:
            continue
        if new == name:
            continue
        met = lambda it: it in tokens or it in taken or it in names
        if met(new):
            new = next((it for it in (new + "_lem", "-".join(map(snake, split(name)))) if not met(it) or it == name), name)
        if new == name:
            continue
        rows[name] = new
        taken[new] = name
    for name in made:
        rows.pop(name, None)
    return rows


def of_library(text):
    """The names that a file imports from the toolchain's libraries."""
    found = set()
    for path, items in re.findall(r"\buse ([^\s;{]+)\{([^}]*)\}", text):
        steps = path.strip(".").split(".")
        if steps[0] != "Rattle" or not os.path.isdir(os.path.join("crates", steps[1])):
            found.update(re.findall(TOKEN, items))
    return found


def turn(path, text, rows):
    kept = of_library(text)
    rows = {k: v for k, v in rows.items() if k not in kept}
    aliases = {m[1] for m in re.finditer(r"(?m)\buse [^\s{]+ as ([^\s;]+)", text)} - {"tie", "goal"}
    modules = aliases | {m[1] for m in re.finditer(r"(?m)^use (?:[^\s{]+\.)?([^\s.{]+)$", text)}

    def word(m):
        token = m[0]
        new = rows.get(token)
        if new is None:
            return token
        before = m.string[m.start() - 1 : m.start()]
        if before == "." and "-" in token:
            head = re.search(r"([^\s(){};,@\"]+)\.$", m.string[: m.start()])
            head = head[1].split(".")[-1] if head else ""
            if head not in modules and not head[:1].isupper():
                return token
        return new

    def code(part):
        return re.sub(TOKEN, word, part)

    def remark(part):
        def quoted(m):
            return "`" + code(m[1]) + "`"

        part = re.sub(r"`([^`\n]*)`", quoted, part)
        return re.sub(r"(?<![\w.-])[a-z][a-z0-9]*(?:[A-Z][a-z0-9]*)+(?![\w-])", lambda m: rows.get(m[0], m[0]), part)

    out = []
    mark = "--" if path.endswith(".antt") else "//"
    for line in text.split("\n"):
        at = re.search(r"(?:^|\s)" + re.escape(mark) + r"(?:\s|$)", line)
        if at and line[: at.start()].count('"') % 2 == 0:
            out.append(code(line[: at.start()]) + remark(line[at.start() :]))
        else:
            out.append(code(line))
    return "\n".join(out)


def turn_page(text, rows):
    camel = {k: v for k, v in rows.items() if re.search("[a-z][A-Z]", k)}

    def quoted(m):
        return "`" + re.sub(TOKEN, lambda w: camel.get(w[0], rows.get(w[0], w[0]) if m[1] == w[0] else w[0]), m[1]) + "`"

    return re.sub(r"`([^`\n]+)`", quoted, text)


def turn_edit(text, rows):
    def line(m):
        return m[1] + re.sub(TOKEN, lambda w: rows.get(w[0], w[0]), m[2])

    return re.sub(r"(?m)^((?:old|new): )(.*)$", line, text)


def main(argv):
    texts = {p: read(p) for p in files() if p.endswith((".antt", ".rt", ".edit", ".md"))}
    rows = table(texts)
    if argv == ["--list"]:
        for old, new in sorted(rows.items()):
            print(old, new)
        return 0
    if argv:
        print(__doc__)
        return 2
    for path, text in texts.items():
        if path.endswith(".edit"):
            new = turn_edit(text, rows)
        elif path.endswith(".md"):
            new = turn_page(text, rows)
        elif path.startswith("crates/"):
            new = turn(path, text, rows)
        else:
            continue
        if new != text:
            with open(path, "w", encoding="utf-8") as f:
                f.write(new)
    print(f"respell: {len(rows)} names")
    return 0


if __name__ == "__main__":
    raise SystemExit(main(sys.argv[1:]))
