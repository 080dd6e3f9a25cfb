#!/usr/bin/env python3
"""Runs two programs on the same random texts, and fails if their results differ.

Usage: bench/alike.py OLD NEW [--seed SEED] [--texts COUNT] [--jobs JOBS]

OLD and NEW are two built programs, for example crates/yamlfmt/out/yamlfmt of two checkouts. Each text goes through
`events`, `check` and `fmt`. The script compares the status, standard output and standard error. A third of the texts
are rows of short tokens, a third are pieces of the workloads' streams with a few characters changed, and a third are
several of these joined as documents. The last line has the number of texts, of accepted texts and of differences.
"""
import argparse
import multiprocessing
import pathlib
import random
import subprocess
import sys

VERBS = ("events", "check", "fmt")

TOKENS = [
    "a", "b", "key", "1", "-1.5", "true", "~", "é", "\u2028", "\ufeff", " ", " ", "  ", "    ", "\n", "\n", "\n", "\r\n", "\r", "\t",
    ":", ": ", "a: ", "- ", "-", "? ", "?", "[", "]", "{", "}", ",", ", ", "#", " # c", "# note\n", "'", "''", '"', "\\", "\\n", "\\x41",
    "|", ">", "|-", "|+", ">2", "&a ", "*a", "!", "!!str ", "!t ", "!e!x ", "<<", "%", "%YAML 1.2\n", "%TAG !e! tag:e,2000:\n", "---", "--- ",
    "---\n", "...", "...\n", "\n  ", "\n    ", "\n- ", "\n  - ", "\nb: ", "\n  c: ", "@", "`", "x y", "\x07",
]

STREAMS = ("config.txt", "data.txt", "awkward.txt")


def pieces():
    """The streams of the workloads, each as its lines."""
    folder = pathlib.Path(__file__).parent
    for name in STREAMS:
        for piece in (folder / name).read_text().split("%%\n"):
            yield piece.replace("@i", "7").replace("@n", "42").replace("@w", "word")


def tokens(rng):
    return "".join(rng.choice(TOKENS) for _ in range(rng.randint(1, 24)))


def changed(rng, streams):
    """Some lines of a stream, with up to three characters removed, inserted or replaced."""
    lines = rng.choice(streams).splitlines(keepends=True)
    begin = rng.randrange(len(lines) or 1)
    text = list("".join(lines[begin:begin + rng.randint(1, 12)]))
    for _ in range(rng.randint(0, 3)):
        at = rng.randrange(len(text) + 1)
        kind = rng.randrange(3)
        if kind != 0 and at < len(text):
            del text[at]
        if kind != 1:
            text.insert(at, rng.choice(TOKENS))
    return "".join(text)


def text_of(seed, streams):
    rng = random.Random(seed)
    kind = rng.randrange(3)
    if kind == 0:
        return tokens(rng)
    if kind == 1:
        return changed(rng, streams)
    parts = [tokens(rng) if rng.random() < 0.5 else changed(rng, streams) for _ in range(rng.randint(2, 4))]
    return rng.choice(["\n---\n", "\n...\n", "\n"]).join(parts)


def answer(program, verb, given):
    done = subprocess.run([program, verb], input=given, capture_output=True)
    return done.returncode, done.stdout, done.stderr


def compared(work):
    """The commands with different results, and whether the text was accepted."""
    old, new, seed, streams = work
    given = text_of(seed, streams).encode("utf-8", "surrogatepass")
    differ, accepted = [], False
    for verb in VERBS:
        one, other = answer(old, verb, given), answer(new, verb, given)
        accepted = accepted or (verb == "events" and one[0] == 0)
        if one != other:
            differ.append((verb, given, one, other))
    return differ, accepted


def main():
    asked = argparse.ArgumentParser(usage=__doc__)
    asked.add_argument("old")
    asked.add_argument("new")
    asked.add_argument("--seed", type=int, default=1)
    asked.add_argument("--texts", type=int, default=50000)
    asked.add_argument("--jobs", type=int, default=2)
    given = asked.parse_args()
    streams = [piece for piece in pieces() if piece.strip()]
    works = ((given.old, given.new, (given.seed << 32) + number, streams) for number in range(given.texts))
    count = accepted = 0
    with multiprocessing.Pool(given.jobs) as pool:
        for differ, taken in pool.imap_unordered(compared, works, chunksize=50):
            accepted += taken
            for verb, text, one, other in differ:
                count += 1
                if count <= 20:
                    print(f"{verb} {text!r}\n  old {one!r}\n  new {other!r}")
    print(f"{given.texts} texts, {accepted} accepted, {count} results differ")
    sys.exit(1 if count else 0)


if __name__ == "__main__":
    main()
