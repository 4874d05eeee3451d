#!/usr/bin/env python3
"""Brings the repository's own definitions and lemmas to the spelling of the newer Rattle, after port.py has run.

usage: tools/respell.py [--list]        at the top of the repository; --list prints the new names and writes nothing

Definitions in camel case (`cellsWithin`) and lemmas of plain words joined by dashes (`one-less`) go to snake case
(`cells_within`, `one_less`). A dash stays where each part is itself a name of the library or of the rules
(`length-take`), and after a type (`Applied-one`). What stays as it is: names in src/ outside clauses, names that a
library has as well and names that Rattle makes. Where a definition and a lemma would fall together, the lemma gets
`_lem`. Text in comments changes only where it is such a name in camel case, or stands in backticks.
"""

import os
import re
import sys

WORD = r"[^\s(){}\[\].,;λ∀:=|\"@`]+"
DEF = re.compile(r"^(\s*)((?:abbrev |unfoldable |private )*)(pub )?((?:" + WORD + r" )*" + WORD + r") : ")
IMPORT = re.compile(r"(?:ghost )?use ([^\s{;]+?)\.\{([^}]*)\}", re.S)
TOKEN = re.compile(r"(?<![A-Za-z0-9_'◌-])([A-Za-z][A-Za-z0-9_]*(?:-[A-Za-z0-9_]+)*'*)(?![A-Za-z0-9_◌-])")


def texts(ext):
    for folder, dirs, names in os.walk("crates"):
        dirs[:] = sorted(d for d in dirs if d != "out")
        for name in sorted(names):
            if name.endswith(ext):
                yield os.path.join(folder, name)


def read(path):
    with open(path, encoding="utf-8") as f:
        return f.read()


def is_walk(path):
    """A proof of one function: what is defined there has the names of goals."""
    return "/proofs/" in path and path.endswith(("/Proof.antt", "/Answers.antt", "/Invariants.antt"))


def is_type(name):
    return name[0].isupper()


def defined():
    """Names that lemma files and specs define, and those of them that are definitions of specs/."""
    names, words = set(), set()
    for path in texts(".antt"):
        if is_walk(path):
            continue
        for line in read(path).splitlines():
            found = DEF.match(line)
            if not found or found.group(4).startswith("--"):
                continue
            for name in found.group(4).split():
                names.add(name)
                if "/specs/" in path and (found.group(2).strip()):
                    words.add(name)
    return names, words


def of_libraries():
    """Names that are imported from a library: they are not ours to change."""
    names = set()
    for ext in (".antt", ".rt"):
        for path in texts(ext):
            for module, inside in IMPORT.findall(read(path)):
                own = module.split(".")
                if own[0] == "Rattle" and own[1] in OWN:
                    continue
                for part in inside.split(","):
                    names.add(part.strip().split(" as ")[0])
    return names


def snake(name):
    return re.sub(r"(?<=[a-z0-9])[A-Z]|(?<=[A-Z])[A-Z](?=[a-z])", lambda m: "_" + m.group(0).lower(), name)


def new_name(name, known):
    parts = name.split("-")
    if is_type(name):
        return parts[0] + ("-" + "_".join(snake(p) for p in parts[1:]) if len(parts) > 1 else "")
    parts = [p if is_type(p) else snake(p) for p in parts]
    if len(parts) > 1 and all(p in known for p in parts):
        return "-".join(parts)
    return "_".join(parts)


def renames():
    names, words = defined()
    library = of_libraries()
    known = {n for n in library if "-" not in n} | {snake(w) for w in words if "-" not in w}
    wanted = {n: new_name(n, known) for n in names if n not in library}
    wanted = {n: to for n, to in wanted.items() if n != to}
    taken = {}
    for n, to in wanted.items():
        taken.setdefault(to, []).append(n)
    together = []
    for to, olds in sorted(taken.items()):
        both = olds + ([to] if to in names and to not in library else [])
        if len(both) == 1 and to not in library:
            continue
        word = None if to in library else next((n for n in both if n in words), next((n for n in both if is_camel(n)), None))
        for n in both:
            wanted[n] = to if n == word else to + "_lem"
        together.append((to, [f"{n} is {wanted[n]}" for n in both]))
    return {n: to for n, to in wanted.items() if n != to}, together


def turn_antt(text, map_):
    out = []
    for line in text.split("\n"):
        cut = re.search(r"(?:^|\s)--(?:\s|$)", line)
        code, comment = (line[: cut.start()], line[cut.start() :]) if cut else (line, "")
        out.append(turn_code(code, map_) + turn_comment(comment, map_))
    return "\n".join(out)


def turn_code(code, map_):
    def put(m):
        name = m.group(1)
        if name not in map_:
            return name
        at = m.start(1)
        if at and code[at - 1] == "." and not is_camel(name) and name not in FIELDS:
            before = re.search(r"([A-Za-z][\w'-]*)\.$", code[:at])
            if not before or not before.group(1)[0].isupper():
                return name
        return map_[name]

    return TOKEN.sub(put, code)


def turn_comment(comment, map_):
    comment = re.sub(r"`[^`]*`", lambda m: TOKEN.sub(lambda t: map_.get(t.group(1), t.group(1)), m.group(0)), comment)
    return TOKEN.sub(lambda t: map_.get(t.group(1), t.group(1)) if is_camel(t.group(1)) else t.group(1), comment)


def hidden(map_):
    """Names that a file had before and that a respelled one has now: a variable might hide it."""
    for ext in (".antt", ".rt"):
        for path in texts(ext):
            code = re.sub(r"(?m)(?:^|\s)(--|//)\s.*$", "", read(path))
            there = set(TOKEN.findall(code))
            for old in sorted(there & set(map_)):
                if map_[old] in there and map_[old] not in map_:
                    yield path, map_[old], old


def is_camel(name):
    return bool(re.match(r"^[a-z][a-z0-9]*[A-Z]", name))


def turn_rt(text, map_):
    """In Rust's text only names in camel case are ours; in lines of ghost use, lemmas too."""
    every = lambda part: TOKEN.sub(lambda t: map_.get(t.group(1), t.group(1)), part)
    plain = lambda part: TOKEN.sub(lambda t: map_.get(t.group(1), t.group(1)) if is_camel(t.group(1)) else t.group(1), part)
    out, at = [], 0
    for m in re.finditer(IMPORT.pattern + r"|\"(?:[^\"\\]|\\.)*\"", text, re.S):
        out.append(plain(text[at : m.start()]))
        out.append(m.group(0) if m.group(0).startswith('"') else every(m.group(0)))
        at = m.end()
    return "".join(out) + plain(text[at:])


def fields_of_records():
    """Names that stand as fields of records in specs/ or lemma files."""
    names = set()
    for path in texts(".antt"):
        if is_walk(path):
            continue
        inside = False
        for line in read(path).splitlines():
            if re.match(r"\s*(abbrev |unfoldable )*(pub )?record\b", line):
                inside = True
            elif line[:1].strip():
                inside = False
            elif inside and (found := DEF.match(line)):
                names.update(found.group(4).split())
    return names


OWN = set(os.listdir("crates"))
FIELDS = fields_of_records()


def main():
    map_, clash = renames()
    for to, olds in clash:
        print(f"would fall together as {to}: {', '.join(olds)}")
    for path, name, old in hidden(map_):
        print(f"look: {path} had {name} already, and has it for {old} now")
    if "--list" in sys.argv:
        for n in sorted(map_):
            print(n, map_[n])
        return
    for ext, turn in ((".antt", turn_antt), (".rt", turn_rt)):
        for path in texts(ext):
            text = read(path)
            new = turn(text, map_)
            if new != text:
                with open(path, "w", encoding="utf-8") as f:
                    f.write(new)
    print(f"{len(map_)} names")


main()
