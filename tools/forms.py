#!/usr/bin/env python3
"""Counts the places in src/ where an older form of the language may stand: a list to read, not a verdict.

usage: python3 tools/forms.py [POINT]      at the top of the repository; POINT is a number from 1 to 7, else all are shown

Tests' crates are left out. A line is a place: its file, its number and what stands there."""

import collections
import difflib
import glob
import re
import sys

FILES = sorted(f for f in glob.glob("crates/*/src/**/*.rt", recursive=True) if "_tests/" not in f)


def crate_of(path):
    return path.split("/")[1]


def lines(pattern, skip=None):
    for path in FILES:
        for number, line in enumerate(open(path), 1):
            code = line.split("//")[0] if "///" not in line else line
            if re.search(pattern, code) and not (skip and re.search(skip, code)):
                yield f"{path}:{number}: {line.strip()}"


def functions():
    """(crate, name, parameters, clauses, body) of each function"""
    for path in FILES:
        text = open(path).read()
        for found in re.finditer(r"^( *)(?:pub(?:\(crate\))? )?fn (\w+)(?:<[^(]*>)?\(", text, re.M):
            indent, name = found.group(1), found.group(2)
            depth, end = 1, found.end()
            while depth:
                depth += {"(": 1, ")": -1}.get(text[end], 0)
                end += 1
            given = text[found.end():end - 1]
            start = re.compile(r"^" + indent + r"\{$|[^}] \{$|\{\}$|;$", re.M).search(text, end)
            stop = start
            if not re.search(r"(\{\}|;)$", start.group()):
                stop = re.compile(r"^" + indent + r"\}", re.M).search(text, start.end())
            clauses = re.findall(r"^ *(?:requires|ensures)\*? (?:\w+ )?\{ (.*) \}[,;]?$", text[end:start.end()], re.M)
            body = text[start.end():stop.end()]
            params = [p.split(":")[0].strip() for p in re.split(r",(?![^<\[(]*[>\])])", given) if p.strip()]
            yield crate_of(path), f"{path.split('/src/')[1]}:{name}", params, clauses, body


def shape(body):
    kept = {"if", "for", "in", "while", "match", "return", "let", "mut", "self", "Ok", "Err", "Some", "None"}
    words = re.findall(r"\w+|[^\w\s]", body)
    return ["n" if w.isdigit() else w if w in kept or not re.match(r"\w", w) else "x" for w in words]


def twins():
    known = [(c, n, shape(b)) for c, n, _, _, b in functions()]
    known = [(c, n, s) for c, n, s in known if len(s) >= 14]
    for i, (crate, name, one) in enumerate(known):
        for crate2, name2, two in known[i + 1:]:
            if abs(len(one) - len(two)) <= 0.25 * len(one):
                if difflib.SequenceMatcher(None, one, two, autojunk=False).ratio() >= 0.9:
                    yield f"{crate} {name} ~ {crate2} {name2}"


def clauses_of_three():
    found = collections.defaultdict(set)
    for crate, name, _, clauses, _ in functions():
        for clause in clauses:
            found[crate, re.sub(r"\.(old|new|now)\b", "", clause)].add(name.split(":")[1])
    for (crate, clause), names in sorted(found.items(), key=lambda it: -len(it[1])):
        if len(names) >= 3:
            yield f"{crate}: {clause[:100]} | {' '.join(sorted(names))}"


def companions():
    found = collections.defaultdict(set)
    for crate, name, params, _, _ in functions():
        params = [p for p in params if "self" not in p]
        for i, one in enumerate(params):
            for two in params[i + 1:]:
                found[crate, one, two].add(name.split(":")[1])
    for (crate, one, two), names in sorted(found.items(), key=lambda it: -len(it[1])):
        if len(names) >= 3:
            yield f"{crate}: {one} {two} | {' '.join(sorted(names))}"


POINTS = {
    1: [("enums", lambda: lines(r"\benum \w")),
        ("flags beside a value", lambda: lines(r"^ +(pub )?\w+: bool,")),
        ("numbers for kinds, numbers for nothing", lambda: lines(r"=> \d+,|-> u8$|stands for none|0 is a count|stands$"))],
    2: [("functions of one shape", twins)],
    3: [("counted loops", lambda: lines(r"for .* in .*\.\.|while "))],
    4: [("by hand", lambda: lines(r"fn (same_|larger|number\b|write_decimal|decimal_len|from|fmt)|if load|Ok\(number\) => Ok"))],
    5: [("facts in three or more contracts", clauses_of_three), ("parameters that travel together in three or more", companions)],
    6: [("lists in structs", lambda: lines(r"^ +(pub )?\w+: (&'a )?(mut )?(Vec<|Room<|\[)", r"^ +\w+: &(mut )?(Vec|\[)")),
        ("lists as parameters", lambda: lines(r"(Vec<|\[)(u8|u16|i64|bool|State|Link|Node|Stretch|Option)", r"^ +(pub )?\w+: Vec"))],
    7: [("steps and tables of functions", lambda: lines(r"\bdyn |\bfn\("))],
}


def main():
    wanted = [int(sys.argv[1])] if len(sys.argv) > 1 else sorted(POINTS)
    for point in wanted:
        for title, places in POINTS[point]:
            found = list(places())
            print(f"point {point}, {title}: {len(found)}")
            for place in found:
                print("  " + place)


main()
