#!/usr/bin/env python3
"""Brings the repository's own definitions and lemmas to the spelling of today's Rattle: words in snake case.

Run once, at the top, right after port.py. It renames what specs/*.antt and proofs/*.antt of each crate define
(definitions, lemmas, fields of records) in every .antt, .rt and .edit file below crates/. A type or a module
keeps its name, and so does whatever src/ names. Without --write it only lists what it would do, and the names
that would fall together.
"""
import collections
import glob
import re
import sys

SIGNATURE = re.compile(r"^(?:(?:unfoldable|abbrev|pub|ruleset)\s+)*([^\s:(){}]+)(?:\s+\([^)]*\))*\s*:(?:\s|$)")
FIELD = re.compile(r"^ {2,4}(?:pub\s+)?([^\s:(){}]+)\s*:\s")
TOKEN = re.compile(r"[^\s(){}\[\].,;:∷⟨⟩|≡≤<>=+*∙→λ×\"`]+")
# Where two names would fall together: the lemma about a definition gets `_lem`, as Rattle's own library has it.
CHOSEN = {
    "builtIn": "built_in_list",
    "built-in-count": "built_in_count_lem",
    "count_at": "count_at_lem",
    "crossing-of": "crossing_of_lem",
    "envelope-bound": "envelope_bound_lem",
    "i-of": "i_of_lem",
    "is-named": "is_named_lem",
    "is-filled": "is_filled_lem",
    "is-sound": "is_sound_lem",
    "long-term": "long_term_lem",
    "no-count": "no_count_lem",
    "no-report": "no_report_lem",
    "not-above": "not_above_lem",
    "percent-of": "percent_of_lem",
    "refused-report": "refused_report_lem",
    "samples-part": "samples_part_lem",
    "some_below": "some_below_lem",
    "some-from": "some_from_lem",
    # constructors of `Answered`, beside the definitions of the same conditions
    "no-samples": "when_no_samples",
    "no-signal": "when_no_signal",
    "no-activity": "when_no_activity",
    "level-below": "when_level_below",
    "level-above": "when_level_above",
    # of the greatest P, beside the lemma on the greatest p
    "P-max": "held_p_max",
}


def snake(name):
    name = re.sub(r"(?<=[a-z0-9])([A-Z])", lambda m: "_" + m.group(1), name)
    return name.replace("-", "_").lower()


def defined():
    names = collections.defaultdict(set)
    for path in sorted(glob.glob("crates/*/specs/**/*.antt", recursive=True) + glob.glob("crates/*/proofs/*.antt")):
        for line in open(path, encoding="utf-8"):
            m = SIGNATURE.match(line) or FIELD.match(line)
            if m:
                names[m.group(1)].add(path)
    return names


def respell(line, rename, path):
    """Code whole; of a comment what stands in backquotes, and names in camel case, which no other word is."""
    mark = {"antt": "--", "rt": "//"}.get(path.rsplit(".", 1)[1])
    at = 0 if path.endswith(".md") else line.find(mark) if mark else -1
    if path.endswith(".edit"):
        at = 0 if line.startswith("#") else -1
    code, comment = (line, "") if at < 0 else (line[:at], line[at:])
    code = TOKEN.sub(lambda m: rename.get(m.group(0), m.group(0)), code)
    quoted = re.sub(r"`[^`]*`", lambda m: TOKEN.sub(lambda t: rename.get(t.group(0), t.group(0)), m.group(0)), comment)
    camel = {old: new for old, new in rename.items() if re.search("[a-z][A-Z]", old)}
    return code + TOKEN.sub(lambda m: camel.get(m.group(0), m.group(0)), quoted)


def main():
    write = "--write" in sys.argv
    names = defined()
    rename = {}
    for name in sorted(names):
        if name in CHOSEN or "-" in name or re.match(r"[a-z]", name) and name != snake(name):
            rename[name] = CHOSEN.get(name, snake(name))
    files = [f for pattern in ("crates/*/specs/**/*.antt", "crates/*/proofs/**/*.antt", "crates/*/src/*.rt", "crates/*/must-fail/*.edit",
                             "README.md", "CONTRIBUTING.md", "docs/*.md")
             for f in sorted(glob.glob(pattern, recursive=True))]
    texts = {f: open(f, encoding="utf-8").read() for f in files}
    present = collections.defaultdict(set)
    for f, text in texts.items():
        for t in TOKEN.findall(text):
            present[t].add(f)
    groups = collections.defaultdict(set)
    for old, new in rename.items():
        groups[new].add(old)
    for new, olds in sorted(groups.items()):
        if len(olds) > 1 or new in present:
            print("together:", new, "<-", sorted(olds), "| already:", sorted(present.get(new, ()))[:6])
    for f, text in texts.items():
        turned = "".join(respell(line, rename, f) for line in text.splitlines(keepends=True))
        if turned != text and write:
            open(f, "w", encoding="utf-8").write(turned)
    print(len(rename), "names")


main()
