#!/usr/bin/env python3
"""Counts the places in crates/*/src that an older style of writing leaves.

Usage: tools/places.py [--list] [POINT..] at the top of a checkout. It prints a count a crate for each point, and with --list each place.
A place is a hit of a pattern: what to look at, and not a verdict. A line with `// kept: ` above or beside a place says why it stays.
"""
import re
import sys
from collections import defaultdict
from pathlib import Path

NAMES = {
    1: "own enums like Option or Result, flags beside values, numbers for kinds",
    2: "twins: functions of one shape",
    3: "loops that count by hand",
    4: "equality, conversion and printing by hand",
    5: "facts in three or more contracts, parameters that travel together",
    6: "buffers with a length or place beside",
    7: "switches on which step to run",
    8: "proof answers: files and lines",
}


def sources():
    for path in sorted(Path("crates").glob("*/src/**/*.rt")):
        yield path, path.read_text().split("\n")


def crate_of(path):
    return path.parts[1]


def hits(patterns, not_patterns=()):
    for path, lines in sources():
        for n, line in enumerate(lines, 1):
            code = line.split("//")[0]
            if code.lstrip().startswith("ghost use") or code.lstrip().startswith("use "):
                continue
            if any(re.search(p, code) for p in not_patterns):
                continue
            for p in patterns:
                if re.search(p, code):
                    yield path, n, line.strip()
                    break


def functions():
    """Each function with its head and its body as lines."""
    for path, lines in sources():
        n = 0
        while n < len(lines):
            found = re.match(r"^(\s*)(pub(\(crate\))? )?fn (\w+)", lines[n])
            if not found or lines[n].rstrip().endswith(";"):
                n += 1
                continue
            indent = found.group(1)
            end = n
            while end < len(lines) and lines[end] != indent + "}" and not lines[end].startswith(indent + "{ "):
                end += 1
                if lines[end - 1].rstrip().endswith("}") and end - 1 == n:
                    break
            body_start = n
            while body_start < end and lines[body_start] != indent + "{" and not lines[body_start].endswith("{"):
                body_start += 1
            yield path, n + 1, found.group(4), lines[n : body_start + 1], lines[body_start + 1 : end]
            n = end + 1


def shape(body):
    names = {}
    text = re.sub(r"\s+", " ", " ".join(l.split("//")[0] for l in body)).strip()

    def one(m):
        word = m.group(0)
        if word[0].isdigit():
            return "N"
        if word in KEYWORDS:
            return word
        return names.setdefault(word, f"v{len(names)}")

    text = re.sub(r'b?"[^"]*"', "S", text)
    text = re.sub(r"b?'(\\.|[^'])'", "S", text)
    return re.sub(r"\w+", one, text)


CALLS = ("width", "axioms", "form", "reading")

KEYWORDS = set("let mut if else match for in while loop return fn pub self Some None Ok Err true false as ref move break continue".split())


def point1():
    yield from hits([r"\b\w+: bool\b", r"\bUnreadable,$", r"\bRefused\(\w+\),$", r"\blayer: u8\b", r"\bnumber: i64,$", r"-> \(i64, i64\)"])
    for path, lines in sources():
        for n, line in enumerate(lines, 1):
            if re.search(r"//.*\b(or|a) 0 (for none|where|,)|0 for none", line):
                yield path, n, line.strip()


def point2():
    groups = defaultdict(list)
    for path, n, name, head, body in functions():
        code = [l for l in body if l.strip() and not l.strip().startswith("//")]
        of = shape(code)
        if len(of) >= (8 if name in CALLS else 24):
            groups[of].append((path, n, name))
    for group in groups.values():
        if len(group) > 1:
            for path, n, name in group:
                yield path, n, f"{name} ({len(group)} of one shape)"


def point3():
    for path, n, name, head, body in functions():
        text = "\n".join(body)
        counted = set()
        for m in re.finditer(r"\bwhile |\bloop \{", text):
            counted.add(text.count("\n", 0, m.start()))
        for m in re.finditer(r"\bfor (\w+) in [^{]*\.\.", text):
            if re.search(r"(\[|get\(|at \+ |insert_bytes.*)[^\]\n]*\b" + m.group(1) + r"\b", text[m.end() :]):
                counted.add(text.count("\n", 0, m.start()))
        inside = 0
        for k, line in enumerate(body):
            if re.search(r"\b(for|while)\b.*\{$", line):
                inside += 1
            if inside and re.search(r"(\w+) (\+=|-=|\*=) |(\b[\w.]+) = \3\.saturating_(add|mul)\(", line):
                counted.add(k)
        for k in sorted(counted):
            yield path, n + len(head) + k, body[k].strip()


def point4():
    yield from hits(
        [
            r"\bfn (byte|of_byte|of_bytes|letter|number|word|name|refusal|kind|put_number|put_header|put_refusal|put_readable|put_part|put_numbers|counted|refused_text|first|detail|is_digit)\b",
            r"\bas (u8|u16|u32|u64|i32|i64|usize|char)\b",
            r"if .* \{ 1 \} else \{ 0 \}",
            r"derive\(Clone, Copy\)",
        ]
    )


def clauses():
    """The contract clauses of each function, one a line."""
    for path, lines in sources():
        for n, line in enumerate(lines, 1):
            m = re.match(r"^\s+(requires|ensures)( \w+)? \{ (.*) \}$", line)
            if m:
                yield path, n, m.group(1), m.group(3)


def point5():
    facts = defaultdict(list)
    for path, n, kind, text in clauses():
        for part in re.split(r" × ", text):
            part = re.sub(r"[()]", "", part).strip()
            facts[(crate_of(path), kind, part)].append((path, n))
    for (crate, kind, part), where in sorted(facts.items(), key=str):
        if len(where) >= 3:
            path, n = where[0]
            yield path, n, f"{kind} {part[:90]} ({len(where)} contracts)"
    users = defaultdict(set)
    for path, n, name, head, body in functions():
        text = re.sub(r"\s+", " ", " ".join(head))
        text = re.split(r"\) (->|requires|ensures)", re.sub(r"fn \w+(<[^(]*>)?\(", "", text))[0]
        for parameter in re.findall(r"(\w+): ", text):
            users[(crate_of(path), parameter)].add((str(path), n))
    for (crate, a), wa in users.items():
        for (other, b), wb in users.items():
            if crate == other and a < b and len(wa & wb) >= 3 and len(wa & wb) * 4 >= 3 * max(len(wa), len(wb)):
                path, n = sorted(wa & wb)[0]
                yield Path(path), n, f"parameters {a}, {b} (together in {len(wa & wb)} functions)"


def point6():
    yield from hits([r"&mut \[[^\]]*; [A-Z_0-9]+\]", r"^\s+(pub )?\w+: \[\w+; \w+\],", r"\b(count|used|held|at|start|place): usize\b", r"\blet mut \w+ = \[[^\]]*; \w+\]"])


def point7():
    yield from hits([r"\bclose\(", r"match (name|encoding|self\.encoding)\b"])


def point8():
    for path in sorted(Path("crates").glob("*/proofs/**/*.antt")):
        if path.name in ("Answers.antt", "Invariants.antt", "Proof.antt"):
            yield path, len(path.read_text().split("\n")), path.name


def main():
    arguments = sys.argv[1:]
    listed = "--list" in arguments
    points = [int(a) for a in arguments if a.isdigit()] or sorted(NAMES)
    for point in points:
        found = list(globals()[f"point{point}"]())
        by_crate = defaultdict(int)
        for path, _, _ in found:
            by_crate[crate_of(path)] += 1
        lines = f", {sum(n for _, n, _ in found)} lines" if point == 8 else ""
        print(f"{point}. {NAMES[point]}: {len(found)}{lines}")
        print("   " + ", ".join(f"{c} {k}" for c, k in sorted(by_crate.items())))
        if listed:
            for path, n, text in found:
                print(f"   {path}:{n}: {text[:120]}")


main()
