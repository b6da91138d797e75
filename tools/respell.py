#!/usr/bin/env python3
"""Respells the names that this repository's specs/ and proofs/ declare, as today's Rattle spells names:
words in snake case (`put-answer` becomes `put_answer`), types in camel case (`Lawful-at` becomes `LawfulAt`).
Run once, at the top of the repository, after the toolchain's own script. Names that Rattle makes (goals and the
fields of what is known at a goal) and names of the standard library stay; so do the names in src/ but for the
clauses, which are antt. What it would merge with another name it leaves and prints."""

import collections
import glob
import re
import sys

PART = r"[A-Za-z_0-9₀-₉'ℕℤ]+"
DECLARED = re.compile(
    r"^\s*(?:(?:abbrev|unfoldable|mutual)\s+)?(?:pub\s+)?(?:(?:data|record|abbrev|unfoldable)\s+)?(?:pub\s+)?"
    r"(" + PART + r"(?:-" + PART + r")+)\s*(?::|\(|\{)(.*)$"
)
USE = re.compile(r"^\s*(?:pub )?(?:ghost )?use ([^{;]+?)\.\{([^}]*)\};?\s*$")
NAME = re.compile(r"(?<![A-Za-z_0-9₀-₉'ℕℤ\-.·])" + PART + r"(?:-" + PART + r")+(?![A-Za-z_0-9₀-₉'ℕℤ\-])")
FIELD = re.compile(r"(?<=[A-Za-z_0-9₀-₉')\]]\.)" + PART + r"(?:-" + PART + r")+(?![A-Za-z_0-9₀-₉'ℕℤ\-])")


def camel(name):
    return "".join(p[:1].upper() + p[1:] for p in name.split("-"))


def spelled(name):
    return camel(name) if name[0].isupper() else name.replace("-", "_")


def antt_files():
    return sorted(glob.glob("crates/*/specs/**/*.antt", recursive=True) + glob.glob("crates/*/proofs/**/*.antt", recursive=True))


def main():
    texts = {f: open(f, encoding="utf-8").read() for f in antt_files()}
    sources = {f: open(f, encoding="utf-8").read() for f in sorted(glob.glob("crates/*/src/**/*.rt", recursive=True))}
    own, fields, foreign = {}, set(), collections.defaultdict(set)
    for f, text in texts.items():
        inside = False
        for line in text.split("\n"):
            if re.match(r"\s*(pub )?record\b", line):
                inside = True
            elif line and not line[0].isspace():
                inside = False
            m = DECLARED.match(line)
            if m and not m[2].strip().startswith("goal."):
                own[m[1]] = spelled(m[1])
                if inside and line[0].isspace():
                    fields.add(m[1])
    for f, text in list(texts.items()) + list(sources.items()):
        for line in text.split("\n"):
            m = USE.match(line)
            if m and not any(m[1].startswith("Rattle." + c) for c in crates()):
                for n in m[2].split(","):
                    n = n.strip()
                    if n in own:
                        foreign[n].add(f)
    aliases = collections.defaultdict(set)
    for f, text in list(texts.items()) + list(sources.items()):
        for m in re.finditer(r"^(?:ghost )?use (Rattle\.[^{\s]*) as ([a-z_]+);?\s*$", text, re.M):
            if not m[1].endswith((".Goals", ".Given")):
                aliases[f].add(m[2])
    taken = collections.Counter()
    for text in list(texts.values()) + list(sources.values()):
        taken.update(re.findall(r"(?<![A-Za-z_0-9₀-₉'ℕℤ\-])" + PART + r"(?![A-Za-z_0-9₀-₉'ℕℤ\-])", text))
    for old, new in sorted(own.items()):
        if taken[new]:
            print("falls together: " + old + " -> " + new + " (" + str(taken[new]) + " places)")
    for n, fs in sorted(foreign.items()):
        print("a library's name too: " + n + " in " + ", ".join(sorted(fs)))

    def turn(text, f):
        behind = "|".join(aliases[f])
        if behind:
            text = re.sub(
                r"(?<![A-Za-z_0-9.])((?:" + behind + r")\.)(" + PART + r"(?:-" + PART + r")+)",
                lambda m: m[1] + own.get(m[2], m[2]),
                text,
            )

        def one(m):
            n = m[0]
            return own[n] if n in own and f not in foreign[n] else n

        def field(m):
            n = m[0]
            return own[n] if n in fields else n

        return FIELD.sub(field, NAME.sub(one, text))

    changed = 0
    for f, text in texts.items():
        lines = []
        for line in text.split("\n"):
            m = re.match(r"^(\s*(?:pub )?use [^{]*\.\{)(.*)$", line)
            lines.append(turn(line, f) if not m else m[1] + turn(m[2], f))
        new = "\n".join(lines)
        if new != text:
            open(f, "w", encoding="utf-8").write(new)
            changed += 1
    for f, text in sources.items():
        new = "\n".join(line if line.lstrip().startswith("//") else turn(line, f) for line in text.split("\n"))
        if new != text:
            open(f, "w", encoding="utf-8").write(new)
            changed += 1
    for f in sorted(glob.glob("docs/*.md") + ["README.md"]):
        text = open(f, encoding="utf-8").read()
        new = re.sub(r"`([^`\n]*)`", lambda m: "`" + (own.get(m[1], m[1])) + "`", text)
        if new != text:
            open(f, "w", encoding="utf-8").write(new)
            changed += 1
    print(str(len(own)) + " names, " + str(changed) + " files changed")


def crates():
    return [d.split("/")[1] for d in glob.glob("crates/*/")]


if __name__ == "__main__":
    sys.exit(main())
