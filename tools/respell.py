#!/usr/bin/env python3
"""Brings the repository's own definitions and lemmas to today's spelling: words in snake case, types and modules in camel case.

usage: respell.py [--dry] [ROOT]

Renamed are the names that the .antt files declare (definitions, lemmas, constructors, fields), in all .antt files and in the clauses and
`ghost use` lines of .rt files. A name that a file takes from the kit keeps its spelling there, as do the names of src/, strings and comments
of code that quote a name in backquotes follow. Printed are the names that fall together.
"""
import collections, os, re, sys

IDENT = r"[A-Za-zℕ][A-Za-z0-9_'ℕ₀-₉]*(?:-[A-Za-z0-9ℕ][A-Za-z0-9_'ℕ₀-₉]*)*"
TOKEN = re.compile(r"(?<![A-Za-z0-9_'ℕ₀-₉◌-])" + IDENT + r"(?![A-Za-z0-9_'ℕ₀-₉◌])")
DECL = re.compile(r"^(\s*)((?:(?:pub|abbrev|unfoldable|opaque|private)\s+)*)(?:(data|record|ruleset)\s+)?(" + IDENT + r")(?=\s*(?::(?!:)|\s[({]|$|\s*=))")


def snake(name):
    if not name[0].islower():
        return name
    out = name.replace("-", "_")
    out = re.sub(r"(?<=[a-z0-9'])([A-Z])", lambda m: "_" + m[1].lower(), out)
    out = re.sub(r"(?<=_)([A-Z])", lambda m: m[1].lower(), out)
    return out.lower() if re.search(r"[A-Z]", out) else out


def files(root):
    for folder, dirs, names in os.walk(os.path.join(root, "crates")):
        dirs[:] = sorted(d for d in dirs if d not in ("out", "must-fail"))
        for f in sorted(names):
            if f.endswith((".antt", ".rt")):
                yield os.path.join(folder, f)


def strip_comment(line):
    return re.sub(r"\s*--( |$).*", "", line)


def declared(path, text):
    """Names that an .antt file declares."""
    out = set()
    lines = text.split("\n")
    for i, line in enumerate(lines):
        l = strip_comment(line)
        if re.match(r"\s*(use|pub use|mod|pub mod|module|open|unfolding|infix|let)\b", l):
            continue
        m = re.match(r"^\s*((?:(?:pub|abbrev|unfoldable|opaque)\s+)*)(?:(data|record|ruleset)\s+)?(" + IDENT + r")\s*(.*)$", l)
        if not m:
            continue
        name, rest = m[3], m[4]
        if name in ("let", "in", "elim", "record", "where", "do", "rw", "simp", "omega", "search", "cc", "grind"):
            continue
        if m[2] or re.match(r":(?!:)", rest):
            out.add(name)
        elif rest == "" and i + 1 < len(lines) and re.match(r"\s*:(?!:)", lines[i + 1]):
            out.add(name)
    return out


def fields(text):
    """Names of the fields of the records that an .antt file declares."""
    out, inside = set(), None
    for line in text.split("\n"):
        l = strip_comment(line)
        depth = len(l) - len(l.lstrip())
        if inside is not None and l.strip() and depth <= inside:
            inside = None
        if re.match(r"\s*(?:(?:pub|abbrev)\s+)*record\b.*\bwhere\s*$", l):
            inside = depth
        elif inside is not None:
            m = re.match(r"\s*(?:pub\s+)?(" + IDENT + r")\s*:(?!:)", l)
            if m:
                out.add(m[1])
    return out


def kit_names(text, own):
    """Names that a file takes from a module that is not of this repository."""
    out = set()
    for m in re.finditer(r"(?:ghost )?use ([\w.'+ℕ-]+?)\.\{([^}]*)\}", text):
        head = m[1].split(".")
        if head[0] == "Rattle" and len(head) > 1 and head[1] in own:
            continue
        for it in m[2].split(","):
            it = it.strip()
            if it:
                out.add(re.split(r"\s+as\s+", it)[-1])
                out.add(re.split(r"\s+as\s+", it)[0])
    return out


def main(argv):
    dry = "--dry" in argv
    rest = [a for a in argv if a != "--dry"]
    root = rest[0] if rest else "."
    own = {c for c in os.listdir(os.path.join(root, "crates"))}
    texts = {p: open(p, encoding="utf-8").read() for p in files(root)}
    names, members = set(), set()
    for p, t in texts.items():
        if p.endswith(".antt"):
            names |= declared(p, t)
            members |= fields(t)
    table = {n: snake(n) for n in names if snake(n) != n}
    # Where a lemma's new spelling is that of a definition, the lemma ends in _lem. Definitions had capitals inside, lemmas dashes; a
    # name with neither had a dash before port.py where a definition of that name stands beside it.
    by = collections.defaultdict(set)
    for n in names:
        by[snake(n)].add(n)
    for new, olds in sorted(by.items()):
        if len(olds) > 1:
            camel = [n for n in olds if "-" not in n and re.search(r"[A-Z]", n)]
            lemmas = [n for n in olds if "-" in n] or [n for n in olds if n not in camel]
            for n in lemmas:
                if n in members:
                    print("a field falls together:", n)
                else:
                    table[n] = new + "_lem"
            print("falls together:", new, sorted(olds), "->", [table.get(n, n) for n in sorted(olds)])
    changed = 0
    for p, t in texts.items():
        keep = kit_names(t, own)
        local = {m[0] for m in TOKEN.finditer(t)}
        mine = {n: w for n, w in table.items() if n in local and n not in keep}
        clash = sorted(n for n, w in mine.items() if w in keep or (w in local and w not in table))
        if clash:
            print("meets another name:", os.path.relpath(p, root), clash)
        if not mine:
            continue

        def one(m):
            # behind a dot stands a field, or a step of the code, which is no lemma
            if m[0] in mine and m.string[m.start() - 1 : m.start()] == ".":
                return snake(m[0])
            return mine.get(m[0], m[0])

        new = antt(t, one) if p.endswith(".antt") else rt(t, one)
        if new != t:
            changed += 1
            if not dry:
                open(p, "w", encoding="utf-8").write(new)
    print(f"{len(table)} names, {changed} files")
    with open("/tmp/respelled.tsv", "w") as f:
        for n, w in sorted(table.items()):
            f.write(f"{n}\t{w}\n")


def quoted(comment, one):
    """A comment, in which names stand in backquotes."""
    return re.sub(r"`[^`\n]*`", lambda m: TOKEN.sub(one, m[0]), comment)


def antt(t, one):
    out = []
    for line in t.split("\n"):
        m = re.search(r"(?:^|\s)--(?:\s|$)", line)
        at = m.start() if m else len(line)
        out.append(TOKEN.sub(one, line[:at]) + quoted(line[at:], one))
    return "\n".join(out)


def closing(t, i):
    deep = 0
    for k in range(i, len(t)):
        deep += (t[k] == "{") - (t[k] == "}")
        if not deep:
            return k + 1
    return len(t)


def rt(t, one):
    """The clauses, ghost items and ghost use lines of a .rt file."""
    out, i = [], 0
    for m in re.finditer(r"\bghost use [^;]*;|\b(?:requires|ensures|decreases)\*?(?:\s+\w+)?\s*\{|\bghost \w+:\s*\{|using\([^)]*\)|unfolding\([^)]*\)", t):
        if m.start() < i:
            continue
        end = closing(t, m.end() - 1) if m[0].endswith("{") else m.end()
        out.append(t[i : m.start()])
        out.append(TOKEN.sub(one, t[m.start() : end]))
        i = end
    out.append(t[i:])
    return re.sub(r"//[^\n]*", lambda m: quoted(m[0], one), "".join(out))


if __name__ == "__main__":
    main(sys.argv[1:])
