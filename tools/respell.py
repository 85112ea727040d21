#!/usr/bin/env python3
"""Respells this repository's own names in specs/, proofs/ and clauses as today's Rattle spells names.

    python3 tools/respell.py [--dry] [TOP]

Run it once, right after the toolchain's port.py, at the top of a tree that has been committed. A fact or a type loses
its dashes and is in camel case, as `HasRoom`; every other definition, field, constructor and lemma is in snake case, as
`tray_at`. Only names that this repository declares are touched: not a library's, not a goal's or a step's of a proof, not a
name of src/, no comment but a name between backquotes, no string. Pages (README, docs/) follow, between backquotes.

It prints each new spelling that already stood in a file where it now stands too: look at these by hand.
"""
from __future__ import annotations

import re
import sys
from pathlib import Path

DRY = "--dry" in sys.argv
TOP = Path([a for a in sys.argv[1:] if not a.startswith("--")][0] if any(not a.startswith("--") for a in sys.argv[1:]) else ".")

TOKEN = re.compile(r"[^\s(){}\[\];,.:\"«»⌜⌝`]+")
HEAD = re.compile(
    r"^\s*(?:(?:abbrev|unfoldable|pub|opaque)\s+)*(?:(?:record|data)\s+)?"
    r"([^\s(){}\[\];,.:\"]+)\s*(?:(?:\{[^{}]*\}|\([^()]*(?:\([^()]*\)[^()]*)*\))\s*)*:(?!:)"
)
USE = re.compile(r"^\s*(?:pub |open |ghost )*use\s+([^\s{;]+?)(?:\.\{([^}]*)\})?(?:\s+as\s+\S+)?\s*;?\s*$")
GOAL = re.compile(r":\s*(?:goal|need|given)\.")
# what a proof's record of steps, a loop's variables or a module of goals is called: the name behind the dot is not ours
STEPS = {"c", "l", "w", "w'", "w1", "w2", "v1", "goal", "need", "given"}

# where the plain spelling is a function's of src/ beside it
OTHERWISE = {
    "header-ranges": "ranges_of_header",
    "first-ranges": "ranges_of_first",
    "bare-ranges": "ranges_of_bare",
    "numbered-ranges": "ranges_of_numbered",
    "over-rows": "terms_over_rows",
    "over-chains": "terms_over_chains",
    "entry-number": "number_of_entry",
}


def crates(top: Path) -> list[str]:
    return sorted(p.name for p in (top / "crates").iterdir() if (p / "src").is_dir())


def files(top: Path, ending: str) -> list[Path]:
    return sorted(p for p in (top / "crates").rglob("*" + ending) if "out" not in p.relative_to(top).parts)


def new_name(name: str) -> str:
    if name in OTHERWISE:
        return OTHERWISE[name]
    if name[:1].isupper():
        first, *rest = name.split("-")
        return first + "".join(part[:1].upper() + part[1:] for part in rest)
    return name.replace("-", "_")


def is_ours(path: str, own: list[str]) -> bool:
    parts = path.split(".")
    if parts[0] != "Rattle":
        return False
    if len(parts) > 1 and parts[1] in own:
        return "declared" not in parts
    return False


def declared_in(path: Path) -> set[str]:
    names = set()
    for line in path.read_text().splitlines():
        if line.strip().startswith("--") or GOAL.search(line):
            continue
        m = HEAD.match(line)
        if m:
            name = m.group(1)
            if "-" in name[1:] and re.match(r"^[^\W\d_][\w'-]*$", name) and not name.endswith("-"):
                names.add(name)
    return names


def foreign_in(text: str, own: list[str]) -> set[str]:
    """The names that a file brings in from elsewhere, or that Rattle makes for it."""
    names = set()
    for line in text.splitlines():
        m = USE.match(line)
        if m and m.group(2) and not is_ours(m.group(1), own):
            for item in m.group(2).split(","):
                names.update(item.split())
        g = re.match(r"^\s*(?:abbrev |pub )*([^\s:]+)\s*:\s*(?:goal|need|given)\.", line)
        if g:
            names.add(g.group(1))
    return names


def turn(text: str, names: dict[str, str], keep: set[str], steps: set[str] = frozenset()) -> str:
    out, at = [], 0
    for m in TOKEN.finditer(text):
        token = m.group()
        behind = text[: m.start()]
        step = False
        if behind.endswith("."):
            head = re.search(r"([^\s(){}\[\];,.:\"]+)\.$", behind)
            step = bool(head) and head.group(1) in steps
        out.append(text[at : m.start()])
        out.append(names[token] if token in names and token not in keep and not step else token)
        at = m.end()
    out.append(text[at:])
    return "".join(out)


def split_comment(line: str, mark: str) -> tuple[str, str]:
    in_string = False
    i = 0
    while i < len(line):
        if line[i] == '"' and (i == 0 or line[i - 1] != "\\") and not (line[i - 1 : i + 2] == "'\"'"):
            in_string = not in_string
        elif not in_string and line.startswith(mark, i) and (mark == "//" or i == 0 or line[i - 1].isspace()):
            return line[:i], line[i:]
        i += 1
    return line, ""


def outside_strings(code: str, turned) -> str:
    parts = re.split(r'("(?:[^"\\]|\\.)*")', code)
    return "".join(p if p.startswith('"') else turned(p) for p in parts)


def quoted(text: str, names: dict[str, str]) -> str:
    return re.sub(r"`([^`\n]+)`", lambda m: "`" + turn(m.group(1), names, set()) + "`", text)


def main() -> None:
    own = crates(TOP)
    antt = files(TOP, ".antt")
    rt = files(TOP, ".rt")
    edits = sorted((TOP / "crates").rglob("must-fail/*.edit"))
    old = set()
    for p in antt:
        old |= declared_in(p)
    names = {n: new_name(n) for n in sorted(old)}
    backwards: dict[str, list[str]] = {}
    for n, m in names.items():
        backwards.setdefault(m, []).append(n)
    for m, ns in backwards.items():
        if len(ns) > 1:
            print("together:", m, ns)
    changed = 0
    for p in antt + rt:
        text = p.read_text()
        keep = foreign_in(text, own)
        mark = "--" if p.suffix == ".antt" else "//"
        tokens = {m.group() for line in text.splitlines() for m in TOKEN.finditer(split_comment(line, mark)[0])}
        for t in sorted(tokens & set(names) - keep):
            if names[t] in tokens:
                print("look:", p.relative_to(TOP), t, "and", names[t])
        for t in sorted(tokens & set(names) & keep):
            print("kept:", p.relative_to(TOP), t)
        # only the proof of a function has steps; a lemma's c is its own variable
        steps = STEPS if p.name in ("Answers.antt", "Choices.antt", "Invariants.antt", "Proof.antt") else frozenset()
        lines = []
        for line in text.split("\n"):
            code, comment = split_comment(line, mark)
            lines.append(outside_strings(code, lambda c: turn(c, names, keep, steps)) + quoted(comment, names))
        turned = "\n".join(lines)
        if turned != text:
            changed += 1
            if not DRY:
                p.write_text(turned)
    for p in edits:
        text = p.read_text()
        turned = turn(text, names, set())
        if turned != text:
            print("edit:", p.relative_to(TOP))
    for p in [TOP / "README.md", *sorted((TOP / "docs").glob("*.md"))]:
        if p.exists():
            text = p.read_text()
            turned = quoted(text, names)
            if turned != text and not DRY:
                p.write_text(turned)
    print(f"{len(names)} names, {changed} files")


main()
