#!/usr/bin/env python3
"""Writes docs/STANDARD.md: the 211 productions of YAML 1.2.2, and how those of crates/yf_standard/specs differ.

Usage: bench/standard.py [--check]     (--check writes nothing, and fails if the page is stale)

Run it by hand; `rt ci` does not run it. It fails if a number from 1 to 211 is missing or occurs twice, or if the name
of a clause is not the standard's. bench/standard.txt has the standard's side: number, name and right side.
"""
import os
import re
import sys
import textwrap

TOP = os.path.dirname(os.path.dirname(os.path.abspath(__file__)))
SPECS = os.path.join(TOP, "crates", "yf_standard", "specs")
PAGE = os.path.join(TOP, "docs", "STANDARD.md")

# The conditions that are reading rules, and readings of this project, by the name of the rule.
RULES = {
    "not-before-line-feed": "one break",
    "not-after-carriage-return": "one break",
    "name-ends": "longest names",
    "tag-ends": "longest names",
    "reserved-name": "reserved names",
    "no-line": "longest scalars",
    "no-trail": "longest scalars",
    "no-comment-line": "longest scalars",
    "no-folded-line": "longest folded lines",
    "auto-detect": "detected indentation",
    "is-sum": "indicated indentation",
    "no-value": "explicit values",
    "sign-ends": "signs",
    "no-comment": "words of directives",
}

# What else differs from the standard's line, in a word.
NOTES = {
    28: "N1",
    40: "a set of first characters is taken away, since an escape has three",
    62: "N4",
    63: "N6: nothing if n is negative",
    64: "N6: nothing for n = 0 and below, for which the standard has no line",
    65: "N6",
    66: "N2: the start of a line",
    67: "N6: nothing in the two key contexts",
    79: "N2: the start of a line",
    83: "N3",
    108: "a set of first characters is taken away",
    110: "N6: nothing in the two block contexts",
    119: "a set of first characters is taken away",
    121: "N6",
    127: "N6: no character in the two block contexts",
    131: "N6",
    136: "N6; in a block context only empty brackets are derived, and no production uses them",
    137: "N8: a collection",
    140: "N8: a collection",
    150: "N8: a collection",
    154: "N7: code points, with the white space",
    155: "N7",
    162: "m is a digit's value or is detected: the standard prints no m, and its text allows a missing digit",
    163: "m is the digit's value; without a digit m is detected (8.1.1.1)",
    167: "the trailing comments may be missing only if the text has none",
    168: "as 167",
    170: "k stands for n + m; N9",
    174: "k stands for n + m; N9",
    183: "N8: a collection",
    186: "N8: a collection",
    187: "N8: a collection",
    195: "N8: a collection",
    201: "N6: nothing in the four other contexts",
    206: "N2; used only by documents, which exclude it",
    207: "N5: 206 is excluded once, by a condition on all that it covers",
}

HEAD = """# The standard's productions, letter by letter

`bench/standard.py` makes this page from `crates/yf_standard/specs` and `bench/standard.txt`.

**Proved** (`standard_laws` of `yf_standard`, `specs/Laws.antt`). Take a UTF-8 text. Production 211, with the reading
rules below and at most `DEPTH` open collections, derives all of it exactly if `Stream` of `yf_stream`, which the reader
follows, derives it. Without the reading rules (`letter` of `specs/Rules.antt`) 211 derives these texts too. `letter`
differs from the standard's letter by two readings: N2, and the sum n + m for n = -1. A text is accepted exactly if 211
derives it and it breaks no [further rule](GRAMMAR.md#further-rules) (`IsStandardText` of `specs/Acceptance.antt`;
`headline` of `yf_rules`).

**The list of productions** has each production as YAML 1.2.2 prints it, written [from
memory](DECISIONS.md#the-standards-productions). The line after it names its reading rules and
[readings](#readings-n1-to-n9). Its clause in `crates/yf_standard/specs` (`Characters`, `Productions`) has the same
number, and `Notation` explains the signs. `bench/standard_lines.py` compares the two, operator by operator, except for
the conditions of the reading rules and six clauses.

## Reading rules

Each rule is a condition in `⟨ ⟩`. Under `letter` only `is-sum` and `auto-detect` require anything.

| Rule | Condition | What it requires | What the letter derives as well |
|---|---|---|---|
| one break (N1) | `not-before-line-feed`, `not-after-carriage-return` | a CR directly before an LF is part of one break | two breaks |
| longest names | `name-ends`, `tag-ends` | a name or suffix ends only before a character that it cannot contain | `*a: b` with the key `*a` |
| reserved names (N3) | `reserved-name` | a reserved directive's name is neither `YAML` nor `TAG` | `%YAML 1.2 x` |
| words of directives | `no-comment` | a parameter does not begin with `#` | `%F #` with the parameter `#` |
| longest scalars | `no-line`, `no-trail`, `no-comment-line` | a block scalar takes each line that it can, and then each comment line that follows | a scalar that stops earlier |
| longest folded lines | `no-folded-line` | a group of folded lines ends only if no folded line follows | other meanings of the same texts: for the lines `>`, ` a`, ` b` also `a`, a line feed and `b` |
| indicated indentation | `is-sum` | k is max(n, 0) + m | nothing: `letter` has it too (by the standard's letter, the sum at the root is m - 1) |
| detected indentation (N9) | `auto-detect` | k is the indentation of the first line that has another character than a space; if no line has content, all lines of spaces are empty lines | any k of n + 1 or more |
| explicit values | `no-value` | the value of a `?` entry is left out only if no `:` of the entry follows | `? k` and `: v` as two entries |
| signs | `sign-ends` | white space, a break or the end follows the `?` and the `:` of an explicit entry | `?-` |

## Readings N1 to N9

| | Production | Reading |
|---|---|---|
| N1 | 28 | one break, as above |
| N2 | 66, 79, 206 | the offset after byte order marks at a line's start counts as its start too. Only this reading adds texts |
| N3 | 83 | reserved names, as above |
| N4 | 62 | two `\\u` escapes, of a high surrogate and then of a low one, mean one character; the texts are the same |
| N5 | 207 | a bare document begins at its content, and comment lines before it belong to the prefix; the texts are the same |
| N6 | 63 to 67, 110, 121, 127, 131, 136, 201 | nothing is derived if n is negative, or if the standard has no line for the context |
| N7 | 154, 155 | the 1,024 characters are code points and include the white space after the key |
| N8 | 137, 140, 150, 183, 186, 187, 195 | at most `DEPTH` of these are open at once, a limit of this project (`COLLECTION` of `specs/Literal.antt`) |
| N9 | 170, 174 | the detection of section 8.1.1.1, which the standard describes in prose |

## Meanings

A meaning is a function of a derivation, by cases on its productions. `content` (`specs/Contents.antt`) returns the text
that a derivation adds to a scalar. `tokens` (`specs/Tokens.antt`) returns its comments, names, scalars, collections,
directives and documents. `said` and `stream_said` (`specs/Tokens.antt`, `specs/Readings.antt`) turn the tokens into
events and documents.

| | Production | Meaning | Section |
|---|---|---|---|
| content | 29, 30, 72: breaks | a line feed, nothing, a space | 5.4, 6.5 |
| | 63 to 66, 162, 169: indentation, separation, a header, comments after a block scalar | nothing | 6.1, 6.2, 8.1.1 |
| | 62: an escape | the number that it writes; two halves of a surrogate pair are one character (N4) | 5.7 |
| | 109, 120: quoted scalars | the text between the quotes | 7.3 |
| | 112: an escaped break | its white space and empty lines, without the backslash | 7.3.1 |
| | 117: two single quotes | one quote | 7.3.2 |
| | 170, 174: block scalars | the text after the sign and the header | 8.1.2, 8.1.3 |
| tokens | 28, 63 to 66, 70, 165, 171, 172, 181: breaks, indentation, separation, empty lines, lines of block scalars | nothing | 5.4, 6.1, 6.2, 6.4, 8.1 |
| | 75: a comment | its offset and its text | 6.6 |
| | 82 to 88, 93: directives | the offset and the words of each, then its comments | 6.8 |
| | 89, 98 to 100: handles and tags | the tag's name and offset | 6.8.2, 6.9.1 |
| | 101, 104: anchors and aliases | the name, and an alias's offset | 6.9.2, 7.1 |
| | 105, 109, 120, 131, 170, 174: scalars | a scalar of that style with its content, then a block scalar's comments | 7.2, 7.3, 8.1 |
| | 137, 140, 150, 183, 186, 187, 195: collections, a single pair | the start and the end of a sequence or a mapping | 7.4, 8.2 |
| | 207, 208: documents | a document with its node's tokens, and whether `---` is written | 9.1 |
| both | all others | the meanings of their parts, in order | |

`meaning_laws` of `yf_standard` proves that each derivation with the reading rules means what the program reads, for
plain and quoted scalars (131, 120, 109), the content of literal and folded scalars (173, 182), block scalars (170,
174), comments (79), separation (80), aliases (104), node properties (96), flow nodes (161), block nodes (196) and
streams (211). The laws on quoted scalars, block scalars and nodes hold for those that cover no forbidden line. So if a
text has a reading, each of its derivations means the documents, directives, comments and bad escapes of that reading.
The tokens have no offsets of nodes, entries and documents. `Ends.antt` of yf_promises says which documents `...` ends.

## The productions
"""


def fail(text):
    sys.exit("standard.py: " + text)


def standard():
    rows = {}
    with open(os.path.join(TOP, "bench", "standard.txt"), encoding="utf-8") as file:
        for line in file:
            number, name, right = line.rstrip("\n").split("|", 2)
            if int(number) in rows:
                fail(f"{number} comes twice in standard.txt")
            rows[int(number)] = (name, right)
    return rows


def clauses():
    found = {}
    for name in ("Characters", "Productions"):
        number = None
        with open(os.path.join(SPECS, name + ".antt"), encoding="utf-8") as file:
            for line in file:
                line = line.rstrip("\n")
                mark = re.match(r"-- \[(\d+)\]", line)
                if mark:
                    number = int(mark.group(1))
                    if number in found:
                        fail(f"{number} comes twice in the definitions")
                    found[number] = []
                elif line.startswith("--") or not line.strip():
                    number = None
                elif number and not line.startswith("unfoldable") and not line.startswith("rule e ="):
                    if line.startswith("    ") and found[number]:
                        found[number][-1] += " " + line.strip()
                    else:
                        found[number].append(line.removeprefix("rule ").strip())
    return found


def wrapped(line):
    return textwrap.wrap(line, 120, subsequent_indent=" " * 13, break_long_words=False, break_on_hyphens=False)


def page():
    theirs, ours = standard(), clauses()
    lines = [HEAD]
    for number in range(1, 212):
        if number not in theirs:
            fail(f"{number} is missing in standard.txt")
        if number not in ours or not ours[number]:
            fail(f"{number} is missing in the definitions")
        name, right = theirs[number]
        plain = name.split("(")[0]
        for one in ours[number]:
            if one.lstrip("(").split()[0].rstrip(")") != plain:
                fail(f"{number} is {plain} in the standard, and here: {one}")
        rules = sorted({RULES[c] for one in ours[number] for c in re.findall(r"⟨ ([^⟩\s]+)", one) if c in RULES})
        note = "; ".join(rules + ([NOTES[number]] if number in NOTES else []))
        lines += wrapped(f"    {number:3}  {name} ::= {right}") + (wrapped(f"         here: {note}") if note else [])
    if len(ours) != 211 or len(theirs) != 211:
        fail(f"{len(theirs)} and {len(ours)} productions, not 211")
    return "\n".join(lines) + "\n"


def main():
    text = page()
    if sys.argv[1:] == ["--check"]:
        with open(PAGE, encoding="utf-8") as file:
            if file.read() != text:
                fail("docs/STANDARD.md is stale: run bench/standard.py")
        return
    with open(PAGE, "w", encoding="utf-8") as file:
        file.write(text)


if __name__ == "__main__":
    main()
