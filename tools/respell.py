#!/usr/bin/env python3
"""Brings this repository's own definitions and lemmas to snake case, after port.py: `tools/respell.py`, once, at the top.

It goes by text. A name counts as ours where a file of specs/ or proofs/ declares it; what a file takes from a library keeps its spelling there.
Goals in proofs/*/Proof.antt keep the names that Rattle gives them, and so do the functions of src/.
"""
import glob
import re
import sys

DECLARED = re.compile(r"^\s*(?:(?:pub|abbrev|unfoldable)\s+)*([^\s:(){}.,;=]+)(?:\s+\{[^}]*\})?\s+:\s")
BOUND = re.compile(r"\blet\s+([^\s:(){}.,;=]+)\s*(?::|=)|\bwhere\s+([^\s:(){}.,;=]+)\s+:\s")
PARAMETERS = re.compile(r"[({]([^(){}:]+?)\s:\s")
TOKEN = re.compile(r"[A-Za-z_][A-Za-z0-9_'·]*(?:-[A-Za-z0-9_'·]+)*")
WORDS = {"use", "let", "module", "record", "data", "where", "in"}

# A lemma whose name in snake case would be that of the definition which it is about, in a file that has both.
FIRST = {
    "crates/cells/proofs/CellEnds.antt": {"is-set": "set_where_valid"},
    "crates/cells/proofs/CellsPassed.antt": {"count_at": "count_in_list"},
    "crates/cells/proofs/CellsCases.antt": {"count_at": "count_in_list"},
    "crates/chain/proofs/CodeLaws.antt": {"code-of": "code_of_right"},
    "crates/link/proofs/Arrival.antt": {"code-of": "code_of_right"},
    "crates/link/proofs/ClearedCells.antt": {"read_at": "read_as_held", "cleared_at": "cleared_as_held"},
    "crates/link/proofs/FairFrames.antt": {"group-hit": "group_is_hit"},
    "crates/link/proofs/ReadFrame.antt": {"mark-of": "mark_returned", "bytes-of": "bytes_returned"},
}


def snake(name):
    """The name in snake case; that of a type, of a record with arguments or of a module stays."""
    if not name[:1].islower() or not TOKEN.fullmatch(name):
        return name
    parts = re.sub(r"(?<=[a-z0-9])([A-Z])", lambda m: "_" + m.group(1).lower(), name.replace("-", "_"))
    return parts


def is_goal_file(path):
    return path.endswith("/Proof.antt")


def declared_in(text):
    names = set()
    for line in text.split("\n"):
        line = line.split("--")[0]
        m = DECLARED.match(line)
        if m and m.group(1) not in WORDS:
            names.add(m.group(1))
        for m in BOUND.finditer(line):
            names.add(m.group(1) or m.group(2))
        for m in PARAMETERS.finditer(line):
            names.update(m.group(1).split())
    return names


def from_libraries(text, crates):
    """What a file imports from libraries that are not ours."""
    names = set()
    for m in re.finditer(r"use\s+([^\s{;]+?)\.\{([^}]*)\}", text):
        path = m.group(1).split(".")
        if not (path[0] == "Rattle" and len(path) > 1 and path[1] in crates):
            names.update(n.strip().split(" as ")[-1] for n in m.group(2).split(","))
    return names


def respell(text, names, keep):
    def turn(m):
        name = m.group(0)
        before = m.string[max(0, m.start() - 4):m.start()]
        return name if name in keep or name not in names or before.endswith("tie.") else names[name]
    return TOKEN.sub(turn, text)


def clauses(text, names, keep):
    """Of a source file the imports of ghosts and the clauses alone."""
    out, depth, inside = [], 0, False
    for line in text.split("\n"):
        code = line.split("//")[0] if line.lstrip().startswith("//") else line
        starts = re.match(r"\s*(ghost use|requires|ensures)\b", code)
        if starts or inside:
            line = re.sub(r"(\b[\w]+) as [A-Z]\w*·\1\b", r"\1", line)
            line = re.sub(r"\b[A-Z]\w*·([a-z]\w*)", r"\1", line)
            line = respell(line, names, keep)
            depth += code.count("{") - code.count("}")
            inside = depth > 0
        out.append(line)
    return "\n".join(out)


def main():
    crates = {path.split("/")[1] for path in glob.glob("crates/*/src")}
    proofs = sorted(glob.glob("crates/*/specs/**/*.antt", recursive=True) + glob.glob("crates/*/proofs/**/*.antt", recursive=True))
    text = {path: open(path, encoding="utf-8").read() for path in proofs}
    for path, renames in FIRST.items():
        text[path] = respell(text[path], renames, set())
        open(path, "w", encoding="utf-8").write(text[path])
    ours = set()
    for path in proofs:
        if not is_goal_file(path):
            ours |= declared_in(text[path])
    names = {name: snake(name) for name in ours if snake(name) != name}

    for path in proofs:
        keep = from_libraries(text[path], crates)
        local = names
        if is_goal_file(path):
            stays = declared_in(text[path])
            local = {a: b for a, b in names.items() if a not in stays}
        new = respell(text[path], local, keep)
        both = {b for a, b in local.items() if re.search(rf"(?<![\w\-·']){re.escape(a)}(?![\w\-·'])", text[path])}
        for b in sorted(both):
            olds = [a for a, c in local.items() if c == b and re.search(rf"(?<![\w\-·']){re.escape(a)}(?![\w\-·'])", text[path])]
            if len(olds) > 1 or re.search(rf"(?<![\w\-·'.]){re.escape(b)}(?![\w\-·'])", text[path]):
                print(f"falls together: {path}: {olds} and {b}")
        if new != text[path]:
            open(path, "w", encoding="utf-8").write(new)

    for path in sorted(glob.glob("crates/*/src/**/*.rt", recursive=True)):
        old = open(path, encoding="utf-8").read()
        new = clauses(old, names, from_libraries(old, crates))
        if new != old:
            open(path, "w", encoding="utf-8").write(new)

    # Edits and pages also have names in the old spelling that port.py turned in the files themselves.
    after = ours | set(names.values())
    words = {w for path in proofs for w in TOKEN.findall(open(path, encoding="utf-8").read())}
    told = dict(names)
    for path in glob.glob("crates/*/must-fail/*.edit") + glob.glob("docs/**/*.md", recursive=True):
        for w in TOKEN.findall(open(path, encoding="utf-8").read()):
            if w not in words and w != snake(w) and snake(w) in after:
                told[w] = snake(w)

    for path in sorted(glob.glob("crates/*/must-fail/*.edit")):
        old = open(path, encoding="utf-8").read()
        lines = old.split("\n")
        of_proofs = any(line.startswith("file:") and line.endswith(".antt") for line in lines)
        for i, line in enumerate(lines):
            if of_proofs or re.match(r"(old|new):\s*(requires|ensures)\b", line):
                lines[i] = respell(line, told, set())
        new = "\n".join(lines)
        if new != old:
            open(path, "w", encoding="utf-8").write(new)

    for path in ["README.md"] + sorted(glob.glob("docs/**/*.md", recursive=True)):
        old = open(path, encoding="utf-8").read()
        new = re.sub(r"`[^`\n]+`", lambda m: respell(m.group(0), told, set()), old)
        if new != old:
            open(path, "w", encoding="utf-8").write(new)
    print(f"respelled {len(names)} names")


if __name__ == "__main__":
    sys.exit(main())
