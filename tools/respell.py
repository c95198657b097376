#!/usr/bin/env python3
"""Respells the definitions and lemmas of this repository as today's Rattle spells them, after the kit's port.py has turned the rest.

usage: python3 tools/respell.py [--check]      at the top of the repository; --check only says what would become what

Words are in snake case, types and modules in camel case. A definition `lineAt` becomes `line_at`, a lemma `row-kept` becomes `row_kept`.
A dash stays where it joins a type or a definition of several words to a name, as in `Turns-to` and `bound_in-append`. Where two
names fall together the definition has the plain name and the lemma ends in `_lem`.
Names that Rattle makes for a function's proof (proofs/F/) are none of ours and stay. Pages name theorems in backticks.
"""

import os
import re
import sys

CUT = re.compile(r"""([\s(){}\[\].,;"`|\\]+)""")
SIGNATURE = re.compile(r"^\s*(?:(?:pub|abbrev|unfoldable)\s+)*((?:[^\s(){}:,=;|.]+\s+)+):\s")
HEAD = re.compile(r"^\s*(?:(?:pub|abbrev|unfoldable)\s+)*(?:record|data)\s+(\S+)")
USE = re.compile(r"^\s*(?:pub\s+)?(?:ghost\s+)?use\s+([^\s{;]+?)\.?\{([^}]*)\}")
# port.py turned where these are cited, and not where they are declared
HALF = {"partOf", "numberAt", "endsAt"}
# two lemmas that would fall together with others
OTHERWISE = {"after-S": "row_after_s", "after-E": "row_after_e"}
MADE = re.compile(r":\s*(?:tie|needs|goal|given)\.\S+\s*$")


def files(root, *ends):
    for folder, dirs, names in os.walk(root):
        dirs[:] = sorted(d for d in dirs if d not in ("out", "target", ".git", "__pycache__"))
        for f in sorted(names):
            if f.endswith(ends):
                yield os.path.join(folder, f)


def text_of(path):
    with open(path, encoding="utf-8", newline="") as f:
        return f.read()


def of_a_function(path):
    """Whether the file is a function's own proof, in a folder below proofs/."""
    return bool(re.search(r"/proofs/.+/", path))


def declared(root):
    """Names that the repository declares, each with whether it stands in specs/ somewhere."""
    names = {}
    for p in files(os.path.join(root, "crates"), ".antt"):
        for line in text_of(p).split("\n"):
            if line.lstrip().startswith("--"):
                continue
            if of_a_function(p) and MADE.search(line):
                continue
            m = SIGNATURE.match(line)
            found = m.group(1).split() if m else []
            h = HEAD.match(line)
            if h:
                found.append(h.group(1))
            for n in found:
                names[n] = names.get(n, False) or "/specs/" in p
    return names


def imported(root):
    """Names that come from elsewhere: from std, the logic and what Rattle makes."""
    names = set()
    own = {c for c in os.listdir(os.path.join(root, "crates"))}
    for p in files(os.path.join(root, "crates"), ".antt", ".rt"):
        for line in text_of(p).split("\n"):
            m = USE.match(line)
            if not m:
                continue
            path = m.group(1).split(".")
            if path[0] == "Rattle" and len(path) > 1 and path[1] in own:
                continue
            names.update(w.strip().split(" ")[0] for w in m.group(2).split(","))
    return names


def snake(name):
    return re.sub(r"(?<=[a-z0-9])(?=[A-Z])", "_", name).lower()


def plain(name):
    return re.fullmatch(r"[A-Za-z0-9_'?-]+", name) is not None


def is_camel(name):
    return re.match(r"[a-z]\w*[A-Z]", name.split("-")[0]) is not None


def respelled(name, camel):
    parts = name.split("-")
    if name[0].isupper():
        return name if len(parts) == 1 else parts[0] + "-" + "_".join(snake(w) for w in parts[1:])
    if len(parts) > 1 and parts[0] in camel:
        return snake(parts[0]) + "-" + "_".join(snake(w) for w in parts[1:])
    return "_".join(snake(w) for w in parts)


def table(root):
    names = declared(root)
    out = imported(root)
    camel = {n for n in names if is_camel(n) and "-" not in n}
    new, taken = {}, {n for n in names if plain(n) and respelled(n, camel) == n} | out
    # definitions before lemmas, words in camel case before words with dashes
    for n in sorted(names, key=lambda n: (n not in camel, not names[n], n)):
        if not plain(n) or n.startswith("_") or n in out:
            continue
        to = OTHERWISE.get(n, respelled(n, camel))
        if to == n:
            continue
        if n in camel and to in names and to not in out and n not in HALF:
            new[to] = to + "_lem"
            taken.add(to + "_lem")
        elif to in taken and n not in HALF:
            to += "_lem"
            while to in taken:
                to += "'"
        taken.add(to)
        new[n] = to
    return new


def turned(text, new, comment):
    """The text with each whole word respelled; comments only inside backticks or where a word is in camel case."""
    lines = []
    for line in text.split("\n"):
        at = line.find(comment)
        code, rest = (line, "") if at < 0 else (line[:at], line[at:])
        code = "".join(new.get(w, w) for w in CUT.split(code))
        rest = "".join(new.get(w, w) if is_camel(w) else w for w in CUT.split(rest))
        rest = re.sub(r"`([^`]*)`", lambda m: "`" + "".join(new.get(w, w) for w in CUT.split(m.group(1))) + "`", rest)
        lines.append(code + rest)
    return "\n".join(lines)


def in_page(text, new):
    def word(m):
        return "`" + "".join(new.get(w, w) for w in CUT.split(m.group(1))) + "`"

    return re.sub(r"(?<!`)`([^`\n]+)`(?!`)", word, text)


def main(argv):
    root = "."
    new = table(root)
    if argv:
        for n in sorted(new):
            print(n, new[n])
        return 0
    for p in files(os.path.join(root, "crates"), ".antt", ".rt", ".edit"):
        t = text_of(p)
        if p.endswith(".rt"):
            code = {n: to for n, to in new.items() if is_camel(n) or "-" in n}
            u = turned(t, code, "//")
        elif p.endswith(".edit"):
            u = "\n".join(turned(l, new, "--") if l.startswith(("old:", "new:")) else in_page(l, new) for l in t.split("\n"))
        else:
            u = turned(t, new, "--")
        if u != t:
            with open(p, "w", encoding="utf-8", newline="") as f:
                f.write(u)
    for p in [*files("docs", ".md"), "README.md", "CONTRIBUTING.md"]:
        t = text_of(p)
        u = in_page(t, new)
        if u != t:
            with open(p, "w", encoding="utf-8", newline="") as f:
                f.write(u)
    print(f"respell: {len(new)} names")
    return 0


if __name__ == "__main__":
    raise SystemExit(main(sys.argv[1:]))
