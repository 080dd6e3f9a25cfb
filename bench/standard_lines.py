#!/usr/bin/env python3
"""Compares each clause of crates/yf_standard/specs with the right side that bench/standard.txt has for its number.

Usage: bench/standard_lines.py

Both are read into one form: a reading rule's condition is left out, the members of a set are alternatives, and m, k and t are
bound nowhere. Then the clause must be the standard's line, operator by operator, except for the productions of OTHERWISE. It
prints those, and fails if another one differs. Run it by hand; it is not part of rt ci.
"""
import re
import sys

import standard

# The productions with clauses that are no copies of the standard's line, and why.
OTHERWISE = {
    63: "nothing for negative n",
    64: "nothing for n = 0 and below",
    65: "nothing for negative n",
    163: "m is a digit's value, or to be detected",
    170: "both indicators by name, k for n+m",
    174: "both indicators by name, k for n+m",
}
# A parameter that the standard finds from the text.
FOUND = {"c-b-block-header(m,t)": "c-b-block-header(t)", "c-indentation-indicator(m)": "c-indentation-indicator"}
CONTEXTS = {"BlockOut": "BLOCK-OUT", "BlockIn": "BLOCK-IN", "FlowOut": "FLOW-OUT", "FlowIn": "FLOW-IN", "BlockKey": "BLOCK-KEY", "FlowKey": "FLOW-KEY"}
ARGUMENTS = {"plus n 1": "n+1", "plus n ( 1 + m )": "n+1+m", "n -ℤ pos 1": "n-1", "in-flow-context c": "in-flow(c)", "negsuc 0": "-1", "pos 0": "0", "pos m": "m"}
EMPTY = ("empty",)


def choice(parts):
    flat = [one for part in parts for one in (part[1:] if part[0] == "or" else [part])]
    if len(flat) == 2 and flat[1] == EMPTY:
        return ("?", flat[0])
    return flat[0] if len(flat) == 1 else ("or", *flat)


def sequence(parts):
    flat = [one for part in parts for one in (part[1:] if part[0] == "then" else [part]) if one != EMPTY] or [EMPTY]
    return flat[0] if len(flat) == 1 else ("then", *flat)


class Reader:
    """Reads one right side. What stands alone is read by `single` of each notation."""

    def __init__(self, text):
        self.tokens, self.at = self.TOKEN.findall(text), 0

    def next(self):
        return self.tokens[self.at] if self.at < len(self.tokens) else ""

    def take(self):
        self.at += 1
        return self.tokens[self.at - 1]

    def whole(self):
        found = self.any_of()
        if self.next():
            raise ValueError(f"left over: {self.tokens[self.at:]}")
        return found

    def any_of(self):
        parts, signs = [self.in_order()], set()
        while self.next() in ("|", "∣", "∪"):
            signs.add(self.take())
            parts.append(self.in_order())
        if "∪" in signs and any(part[0] == "-" for part in parts):
            raise ValueError("∪ and ∖ at one level")
        return choice(parts)

    def in_order(self):
        parts = []
        while self.next() not in ("", "|", "∣", "∪", ")", "]", "›"):
            if self.next() == "∙":
                self.take()
            part, taken = self.repeated(), []
            while self.next() in ("-", "∖", "less"):
                self.take()
                taken.append(self.repeated())
            parts.append(("-", part, *taken) if taken else part)
        return sequence(parts)

    def repeated(self):
        part = self.single()
        while self.next() in self.POST or re.fullmatch(r"\{\d\}", self.next()):
            token = self.take()
            part = sequence([part] * int(token[1])) if token[0] == "{" else (self.POST[token], part)
        return part

    def until(self, end):
        found = self.any_of()
        if self.take() != end:
            raise ValueError(f"no {end}")
        return found


class Theirs(Reader):
    POST = {"?": "?", "*": "*", "+": "+"}
    TOKEN = re.compile(r"""/\*.*?\*/|\[\ look\w+\ [=≠]|\[x\w+-x\w+\]|'[^']'|"[^"]*"|<[a-z-]+>|\bx[0-9A-F]{2,6}\b|\{\d\}
        |[a-zA-Z](?:[\w-]|\+(?=[a-z]))*(?:\((?:[^()]|\([^()]*\))*\))?|\S""", re.X)

    def single(self):
        token = self.take()
        if token == "(":
            return self.until(")")
        if token.startswith("[ look"):
            return (token[2:], self.until("]"))
        if token.startswith("[x"):
            return ("to", *(int(one, 16) for one in re.findall(r"x(\w+)", token)))
        if token == "<empty>":
            return EMPTY
        if token[0] in "'\"":
            return sequence([("x", ord(one)) for one in token[1:-1]])
        if re.fullmatch(r"x[0-9A-F]{2,6}", token):
            return ("x", int(token[1:], 16))
        if token[0] == "<" or token[:2] == "/*":
            return ("note", token.strip("<>/* "))
        return ("name", token)


class Ours(Reader):
    POST = {"⁇": "?", "⋆": "*", "⁺": "+"}
    TOKEN = re.compile(r"[⟨⟩()‹›∙∣∪∖⁇⋆⁺λ.ε]|[^\s()‹›⟨⟩⁇⋆⁺.]+")

    def single(self):
        token = self.take()
        if token in ("(", "‹"):
            return self.until(")" if token == "(" else "›")
        if token == "some-m":
            end = self.take() if self.next() == "(" else ""
            self.at += 3
            return self.until(")") if end else self.any_of()
        if token == "⟨":
            return self.condition()
        if token == "times":
            number = int(self.take())
            return sequence([self.single()] * number)
        if token == "at-most":
            return sequence([self.single(), ("note", "At most 1024 characters altogether")]) if self.take() == "1024" else EMPTY
        if token == "excluding-c-forbidden":
            return sequence([self.single(), ("note", "Excluding c-forbidden content")])
        if token == "ε":
            return EMPTY
        if token == "x":
            return ("x", int(self.take(), 0))
        if token.startswith("0x"):
            self.take()
            return ("to", int(token, 16), int(self.take(), 16))
        return self.named(token)

    def condition(self):
        token = self.take()
        found = (token[:-1] + " " + token[-1], self.single()) if token[-1] in "=≠" else ("note", token)
        while self.take() != "⟩":
            pass
        return EMPTY if token in standard.RULES else found

    def named(self, token):
        arguments = []
        while self.next() in ("n", "c", "t", "m", *CONTEXTS) or self.next() == "(" and self.tokens[self.at + 1] in ("plus", "pos", "negsuc", "in-flow-context", "n"):
            arguments.append(self.argument())
        text = token + ("(" + ",".join(arguments) + ")" if arguments else "")
        return ("name", FOUND.get(text, text))

    def argument(self):
        token = self.take()
        if token != "(":
            return CONTEXTS.get(token, token)
        words = [token]
        while words.count("(") > words.count(")"):
            words.append(self.take())
        return ARGUMENTS[" ".join(words[1:-1])]


def standard_line(right):
    if right in ("'|'", "'\"'", '"\'"'):
        return ("x", ord(right[1]))
    if not re.match(r"[A-Z-]+(, [A-Z-]+)*: ", right):
        return Theirs(right).whole()
    found = {}
    for part in right.split("; "):
        names, body = part.split(": ", 1)
        for name in names.split(", "):
            found[name] = Theirs(re.sub(r"\bc\)", name + ")", body)).whole()
    return found


def clause_lines(clauses):
    if len(clauses) == 1:
        return Ours(clauses[0].split(" = ", 1)[1]).whole()
    found = {}
    for one in clauses:
        left, right = one.split(" = ", 1)
        word = left.strip("()").split()[-1]
        if right != "no-character":
            found[CONTEXTS.get(word, word)] = Ours(right).whole()
    return found


def main():
    theirs, ours = standard.standard(), standard.clauses()
    failed = False
    for number, (name, right) in theirs.items():
        same = number in OTHERWISE or standard_line(right) == clause_lines(ours[number])
        if number in OTHERWISE:
            print(f"[{number}] {name} ::= {right}\n    {'; '.join(ours[number])}: {OTHERWISE[number]}")
        if not same:
            failed = True
            print(f"[{number}] {name} DIFFERS: {right}\n    {'; '.join(ours[number])}\n    {standard_line(right)}\n    {clause_lines(ours[number])}")
    print(f"{len(theirs) - len(OTHERWISE)} clauses are the standard's line, {len(OTHERWISE)} are read otherwise" if not failed else "some clauses differ")
    sys.exit(failed)


main()
