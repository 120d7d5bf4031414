#!/usr/bin/env python3
"""Brings the repository's own definitions and lemmas to one spelling: words in snake case, types in camel case.

usage: tools/respell.py [--dry]      at the top of the repository, right after the toolchain's own script of respelling

A name is the repository's own where an .antt file under crates/ defines it: at the head of a definition, as a field, a case
or a record, or by `let`. Names that the check makes of the code (`goal.x`, `c.x`) and names of the toolchain's libraries stay.
Texts, comments, functions and fields of the code stay as they are. Prints what was renamed, and names that would fall together.
"""
import pathlib
import re
import sys

ROOT = pathlib.Path(__file__).resolve().parent.parent
NAME = r"[A-Za-z_][A-Za-z0-9_'₂]*(?:-[A-Za-z0-9_'₂]+)*"
TOKEN = re.compile(
    r'(?P<comment>--[^\n]*|//[^\n]*)|(?P<string>b?"(?:\\.|[^"\\])*")|(?P<quoted>«[^»]*»)|(?P<name>(?<![A-Za-z0-9_·])' + NAME + r")"
)
HEAD = re.compile(
    r"^\s*(?:(?:pub|abbrev|data|record|unfolding)\s+)*(" + NAME + r")\s*(?::(?![:=])|\{[^}]*:|\([^)]*:|$)"
)
RECORD = re.compile(r"^\s*(?:pub\s+)?(?:record|data)\s+(" + NAME + ")")
LET = re.compile(r"\blet\s+(" + NAME + r")\s*[:=]")
KEYWORDS = {"pub", "abbrev", "data", "record", "where", "in", "let", "use", "module", "mod", "elim", "rw", "simp", "grind", "omega"}
# Names that would meet a function, a field or another name of their own file get another word.
OTHERWISE = {
    "accessPoint": "an_access_point",
    "access-point": "an_access_point",
    "bit-at": "bit_at_place",
    "header-length": "header_long",
    "setBits": "count_of_set_bits",
    "mapSize": "size_of_map",
    "withPacket": "counting_packet",
    "withDropped": "counting_dropped",
    "withOpen": "counting_open",
    "isLast": "is_the_last",
    "kindWord": "word_of_kind",
    "verdictWord": "word_of_verdict",
    "checksumWord": "word_of_checksum",
    "serviceWord": "word_of_service",
    "onOff": "on_or_off",
    "yesNo": "yes_or_no",
    "accessFact": "fact_of_access",
    "referenceFact": "fact_of_reference",
    "frameFact": "fact_of_frame",
    "timeFact": "fact_of_time",
    "kindNumber": "number_of_kind",
    "frameIdIn": "frame_id_within",
    "timestampIn": "timestamp_within",
    "factsIn": "facts_within",
    "digitCount": "count_of_digits",
    "digitValue": "value_of_digit",
    "isDash": "is_a_dash",
    "ring-tied": "RingTied",
    "fade-tied": "FadeTied",
}
CRATES = {line.split(":")[0].split()[0] for line in (ROOT / "crates.txt").read_text().splitlines() if ":" in line and not line.startswith("#")}


def files():
    for kind in ("antt", "rt"):
        yield from sorted(ROOT.glob(f"crates/*/specs/**/*.{kind}"))
        yield from sorted(ROOT.glob(f"crates/*/proofs/**/*.{kind}"))
        yield from sorted(ROOT.glob(f"crates/*/src/**/*.{kind}"))


def generated(line):
    """Whether this line says the goal that an answer is for."""
    return re.search(r":\s*goal\.", line) is not None


def without_comment(line):
    return line.split("--")[0] if "--" in line else line


def defined():
    """The repository's own names, and those of them that are types."""
    names, types = set(), set()
    for path in files():
        if path.suffix != ".antt":
            continue
        for line in path.read_text(encoding="utf-8").splitlines():
            code = without_comment(line)
            if generated(code):
                continue
            for pattern in (HEAD, RECORD):
                found = pattern.match(code)
                if found and found.group(1) not in KEYWORDS:
                    names.add(found.group(1))
            names.update(LET.findall(code))
    return names


def respelt(name):
    """The name in snake case, or in camel case where it is a type's."""
    if name in OTHERWISE:
        return OTHERWISE[name]
    parts = re.split(r"-", name)
    if name[0].isupper():
        return "".join(part[:1].upper() + part[1:] for part in parts)
    joined = "_".join(parts)
    return re.sub(r"(?<=[a-z0-9])([A-Z])", lambda m: "_" + m.group(1).lower(), joined)


def foreign(text):
    """The names that a file brings in from the toolchain's libraries."""
    names = set()
    for found in re.finditer(r"(?:ghost )?use Rattle\.(\w+)\.[\w.'-]*\.\{([^}]*)\}", text):
        if found.group(1) not in CRATES:
            for part in found.group(2).split(","):
                part = part.strip()
                names.add(part.split(" as ")[0].strip())
                names.add(part.split(" as ")[-1].strip())
    return names


def turn(path, names, used):
    text = path.read_text(encoding="utf-8")
    kept = foreign(text)

    def one(found):
        name = found.group("name")
        if name is None or name not in names or name in kept:
            return found.group(0)
        before = text[: found.start()]
        if re.search(r"(?<![\w'-])(?:c|goal|l|w|given)\.$", before):
            return name
        new = respelt(name)
        used.setdefault(name, set()).add(str(path.relative_to(ROOT)))
        return new

    return text, TOKEN.sub(one, text)


def main():
    dry = "--dry" in sys.argv[1:]
    own = defined()
    names = {n for n in own if respelt(n) != n and not n.startswith("_")}
    used, kept_names = {}, own - names
    turned = [(path, *turn(path, names, used)) for path in files()]
    for old in sorted(used):
        print(f"{old} -> {respelt(old)}")
    spelt = {}
    for old in used:
        spelt.setdefault(respelt(old), set()).add(old)
    for new, olds in sorted(spelt.items()):
        if len(olds) > 1 or new in kept_names:
            print(f"falls together: {sorted(olds)} and {new}" + (" which stands" if new in kept_names else ""))
    if not dry:
        for path, text, new in turned:
            if text != new:
                path.write_text(new, encoding="utf-8")
    print(f"{len(used)} names turned")


if __name__ == "__main__":
    main()
