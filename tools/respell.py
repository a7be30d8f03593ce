#!/usr/bin/env python3
"""Brings this repository's own definitions, lemmas, fields and constructors to snake case: byteAt and whole-walk become byte_at and whole_walk.

usage: tools/respell.py [--table FILE] [--check]     at the top of the repository, once, on a tree that port.py has turned

A name is the repository's own where an .antt file of specs/ or proofs/ declares it: at the left margin, as a constructor or as a field. What Rattle makes
(tie.Need-.., a step's name behind a dot) stays, and so do names of Rust. A lemma that would fall together with another name gets _lem. Turned are .antt
files; clauses, ghost lines and comments of .rt files; edits; quoted names of pages; strings and comments of the Rust tests.
"""
import os
import re
import sys

WORD = re.compile(r"[^\s(){}.;,@\"«»:`/]+")
DECLARED = re.compile(r"^(?:(?:abbrev|unfoldable)\s+)?(?:pub\s+)?(data\s+|record\s+)?([^\s(){}:.;,@\"«»]+)(?:\s*[({][^)}]*[)}])*\s*:(?=\s)", re.M)
FIELD = re.compile(r"^[ \t]+(?:pub\s+)?([a-z][^\s(){}:.;,@\"«»]*)\s+:\s", re.M)
COMMENT = re.compile(r"--[^\n]*")


def files(top, *endings):
    for root, folders, names in os.walk(top):
        folders[:] = sorted(f for f in folders if f not in ("out", "target", ".git", "node_modules"))
        for name in sorted(names):
            if name.endswith(endings):
                yield os.path.join(root, name)


def read(path):
    with open(path, encoding="utf-8") as f:
        return f.read()


def walk(path):
    """Whether a file is the proof of a function."""
    return "/proofs/" in path and os.path.basename(path) in ("Proof.antt", "Answers.antt", "Invariants.antt")


def snake(name):
    """The name in snake case: a dash becomes _, and a capital inside a word begins a new one."""
    word = re.sub(r"(?<=[a-z0-9'])([A-Z]+)(?=[a-z]|$)", lambda m: "_" + m.group(1).lower(), name.replace("-", "_"))
    word = re.sub(r"(?<=[a-z0-9_])[A-Z]+", lambda m: m.group(0).lower(), word)
    return word


def turns(name):
    return re.match(r"[a-z]", name) and "◌" not in name and "*" not in name and (("-" in name) or re.search(r"[A-Z]", name))


def declared():
    """The names that .antt files of this repository declare, and those of them that are fields or constructors."""
    names, fields, kept = {}, set(), set()
    for path in files("crates", ".antt"):
        text = COMMENT.sub("", read(path))
        own = not walk(path)
        for m in DECLARED.finditer(text):
            name = m.group(2)
            if m.group(1) or name in ("use", "mod"):
                continue
            if own:
                names.setdefault(name, path)
        if own:
            for m in FIELD.finditer(text):
                names.setdefault(m.group(1), path)
                # fields and constructors stand below a line that begins a record or data
                head = text[: m.start()].rsplit("\n\n", 1)[-1] if "\n\n" in text[: m.start()] else text[: m.start()]
                if re.search(r"^(?:pub\s+)?(?:pub record|record|pub data|data)\b.*\bwhere\b", head, re.M):
                    fields.add(m.group(1))
    return names, fields


# fields that no file uses beside the definition of their new name
APART = {"mark-in": "mark_in", "marks-in": "marks_in"}


def defined(names, name):
    """Whether a name is a definition, which keeps its name where a lemma would fall together with it."""
    return "/specs/" in names.get(name, "/specs/")


def table():
    names, fields = declared()
    every = set(names) | fields
    rust = set()
    for path in files("crates", ".rt"):
        rust.update(re.findall(r"\b[a-z_][a-z0-9_]*\b", re.sub(r"//[^\n]*", "", read(path))))
    rows, taken = {}, {}
    for name in sorted(every, key=lambda n: (not defined(names, n), "-" in n, n)):
        if name in APART:
            rows[name] = APART[name]
        elif turns(name):
            new = snake(name)
            if new in every and defined(names, name) and not defined(names, new) and new not in rows and new + "_lem" not in every:
                rows[new] = new + "_lem"
                taken[new + "_lem"] = new
                rows[name] = new
                taken[new] = name
                continue
            if new in every or new in taken:
                new += "_lem"
            if new in every or new in taken:
                sys.exit(f"respell: {name} falls together with {taken.get(new, new)}")
            rows[name] = new
            taken[new] = name
    return rows, fields, names, rust


def antt(text, rows, fields, generated):
    """Turns the words of antt code and comments; behind a dot a field or a name of a module alone."""
    out, last = [], 0
    for m in WORD.finditer(text):
        word = m.group(0)
        new = rows.get(word)
        if new is None and word.endswith("'") and word.rstrip("'") in rows:
            new = rows[word.rstrip("'")] + word[len(word.rstrip("'")):]
        if new is None:
            continue
        before = text[max(0, m.start() - 5): m.start()]
        if before.endswith(".") and not turns(word):
            continue
        if before.endswith(".") and generated and (before.endswith("tie.") or word not in fields):
            continue
        out.append(text[last: m.start()])
        out.append(new)
        last = m.end()
    out.append(text[last:])
    return "".join(out)


CLAUSE = re.compile(r"(?:requires|ensures|ghost)\b[^{;\n]*\{")


def rt(text, rows, fields):
    """Turns comments, ghost lines and clauses of a source file, and no other text."""
    spans = [m.span() for m in re.finditer(r"//[^\n]*|ghost use[^;]*;", text)]
    for m in CLAUSE.finditer(text):
        depth, i = 1, m.end()
        while depth and i < len(text):
            depth += {"{": 1, "}": -1}.get(text[i], 0)
            i += 1
        spans.append((m.end(), i))
    spans.sort()
    out, last = [], 0
    for a, b in spans:
        if a < last:
            continue
        out.append(text[last:a])
        part = text[a:b]
        out.append(quoted(part, rows, fields) if part.startswith("//") else antt(part, rows, fields, False))
        last = b
    out.append(text[last:])
    return "".join(out)


def quoted(text, rows, fields, every=frozenset()):
    """Turns names in capitals and small letters, and names with a dash that stand in quotes of code or behind a path and a colon."""
    class Rows(dict):
        def get(self, word, default=None):
            turned = snake(word)
            return dict.get(self, word, turned if turned in every else default)

    camel = {k: v for k, v in rows.items() if "-" not in k and turns(k)}
    dashed = {k: v for k, v in rows.items() if "-" in k}
    camel, dashed = Rows(camel), Rows(dashed)
    text = re.sub(r"(?<![\w'-])[a-z][A-Za-z0-9']*[A-Z][A-Za-z0-9']*(?![\w'-])", lambda m: camel.get(m.group(0), m.group(0)), text)
    text = re.sub(r"(?<=[A-Za-z]:)([a-z][\w'-]*-[\w'-]*\w)", lambda m: dashed.get(m.group(1), m.group(1)), text)
    text = re.sub(r"`([a-z][\w'-]*-[\w'-]*\w)`", lambda m: "`" + dashed.get(m.group(1), m.group(1)) + "`", text)
    return text


def main(argv):
    rows, fields, names, rust = table()
    if "--table" in argv:
        with open(argv[argv.index("--table") + 1], "w", encoding="utf-8") as f:
            for k in sorted(rows):
                f.write(f"{k}\t{rows[k]}\n")
    # names that fall together: a word of a file, or a parameter or field of Rust, that is spelled as a new name
    news = {v: k for k, v in rows.items()}
    for path in files("crates", ".antt"):
        text = read(path)
        words = set(WORD.findall(COMMENT.sub("", text)))
        for w in sorted(words & set(news)):
            if news[w] in words:
                print(f"together: {path}: {news[w]} and {w}")
    for w in sorted(rust & set(news)):
        print(f"rust: {news[w]} becomes {w}")
    if "--check" in argv:
        return
    changed = 0
    every = set(names) | fields
    spelled = {k: v for k, v in rows.items() if turns(k)}
    for top, endings in (("crates", (".antt", ".rt", ".edit", ".md")), ("acceptance", (".edit",)), ("docs", (".md",)), ("rust", (".rs", ".md", ".tsv", ".txt")),
                         ("fuzz", ("",)), ("include", (".h",)), ("examples", (".md", ".c", ".py", ".rs"))):
        if not os.path.isdir(top):
            continue
        for path in files(top, *endings):
            try:
                text = read(path)
            except UnicodeDecodeError:
                continue
            if path.endswith(".antt"):
                new = antt(text, rows, fields, walk(path))
            elif path.endswith(".rt"):
                new = rt(text, spelled, fields)
            elif path.endswith(".edit"):
                new = "\n".join(antt(l, spelled, fields, False) if l.startswith(("old: ", "new: ")) else l for l in text.split("\n"))
            else:
                new = quoted(text, spelled, fields, every)
            if new != text:
                with open(path, "w", encoding="utf-8") as f:
                    f.write(new)
                changed += 1
    for path in ("README.md",):
        text = read(path)
        new = quoted(text, spelled, fields, every)
        if new != text:
            with open(path, "w", encoding="utf-8") as f:
                f.write(new)
            changed += 1
    print(f"respell: {len(rows)} names, {changed} files")


main(sys.argv[1:])
