"""Computes what texts mean by the definitions of crates/yf_standard: the productions and their meanings, as they are written there.

`documents(text)` returns all that the derivations of the whole text as l-yaml-stream say, with the reading rules. Only the
conditions in ⟨ ⟩ are written here once more, since they are relations in `Rules`.
"""
import functools
import os
import sys

from definitions import Con, Definitions, integer, number

TOP = os.path.dirname(os.path.dirname(os.path.abspath(__file__)))
SPECS = TOP + '/crates/yf_standard/specs/'
FILES = [SPECS + name + '.antt' for name in ('Notation', 'Characters', 'Productions', 'Contents', 'Tokens', 'Readings')] + [
    TOP + '/crates/' + name for name in ('yf_chars/specs/Escape.antt', 'yf_chars/specs/Signs.antt', 'yf_quoted/specs/Quoted.antt',
                                         'yf_events/specs/Event.antt', 'yf_props/specs/Props.antt',
                                         'yf_grammar/specs/Productions/Meaning.antt')]
DECLARED = 'BlockOut BlockIn FlowOut FlowIn BlockKey FlowKey Plain Single Double Literal Folded'.split()
NO_CHARACTER = 0x110000
MARK = 0xFEFF
# (Deep texts need a deep stack.)
sys.setrecursionlimit(100_000)


def curried(count, function):
    """A function of some arguments that takes them one by one."""
    def taken(args):
        return lambda arg: function(*args, arg) if len(args) + 1 == count else taken(args + (arg,))
    return taken(())


def utf8(codes):
    return tuple(''.join(map(chr, codes)).encode('utf-8', 'surrogatepass'))


BUILTINS = {
    'length': len, 'not': lambda value: not value, 'codes': lambda value: value, 'encode_utf8_all': utf8,
    'scalar': lambda value: value < 0x110000 and not 0xD800 <= value < 0xE000,
    'nat_le': curried(2, lambda a, b: a <= b), 'nat_lt': curried(2, lambda a, b: a < b),
    'is_between': curried(3, lambda low, high, value: low <= value <= high),
    'digit_value': lambda code: int(chr(code), 16) if chr(code) in '0123456789abcdefABCDEF' else 99,
    'slice_range': curried(3, lambda text, start, end: text[start:end]),
    'code': curried(2, lambda text, at: text[at] if at < len(text) else NO_CHARACTER),
}


@functools.cache
def definitions():
    return Definitions(FILES, DECLARED, BUILTINS)


class Text:
    """All derivations of a text. Offsets count characters."""

    def __init__(self, text):
        self.codes = tuple(map(ord, text))
        self.run = definitions()
        self.known = {}
        self.deepest = max([len(line) for line in text.splitlines()] + [0]) + 1

    def code(self, at):
        return self.codes[at] if 0 <= at < len(self.codes) else NO_CHARACTER

    # ---- derivations: for each end, the set of pairs of content and tokens

    def derive(self, form, at):
        name, args = form.name, form.args
        if name == 'ε':
            return {at: {((), ())}}
        if name == 'never':
            return {}
        if name == '‹◌›':
            return self.one_of(args[0], at)
        if name == '∙':
            return self.then(self.derive(args[0], at), args[1])
        if name == '∣':
            return merged(self.derive(args[0], at), self.derive(args[1], at))
        if name == '⁇':
            return merged({at: {((), ())}}, self.derive(args[0], at))
        if name == '⋆':
            return self.star(args[0], {at: {((), ())}})
        if name == '⁺':
            return self.star(args[0], self.derive(args[0], at))
        if name == 'less':
            return {} if self.run.call(args[1], (self.code(at),)) else self.derive(args[0], at)
        if name == '⟨◌⟩':
            return {at: {((), ())}} if self.holds(args[0], at) else {}
        return self.bounded(name, args, at) if name in BOUNDED else self.production(form, at)

    def bounded(self, name, args, at):
        if name == 'at-most':
            return {end: found for end, found in self.derive(args[1], at).items() if end - at <= args[0]}
        if name == 'excluding-c-forbidden':
            return {end: found for end, found in self.derive(args[0], at).items() if self.is_clear(at, end)}
        values = range(self.deepest) if name == 'some-m' else map(integer, range(self.deepest + 10))
        found = {}
        for value in values:
            found = merged(found, self.derive(self.run.call(args[0], (value,)), at))
        return found

    def one_of(self, characters, at):
        if at < len(self.codes) and self.run.call(characters, (self.code(at),)):
            return {at + 1: {(self.run.apply('one_char', self.code(at)), ())}}
        return {}

    def then(self, first, form):
        found = {}
        for middle, begun in first.items():
            for end, ended in self.derive(form, middle).items():
                found.setdefault(end, set()).update((a + c, b + d) for a, b in begun for c, d in ended)
        return found

    def star(self, form, found):
        """One part more, as long as that gives something new. (A part without characters adds nothing.)"""
        whole, last = found, found
        while last:
            more = {}
            for start, begun in last.items():
                for end, ended in self.derive(form, start).items():
                    if end > start:
                        more.setdefault(end, set()).update((a + c, b + d) for a, b in begun for c, d in ended)
            last = {end: values - whole.get(end, set()) for end, values in more.items() if values - whole.get(end, set())}
            whole = merged(whole, last)
        return whole

    def production(self, form, at):
        if (form, at) not in self.known:
            self.known[form, at] = {}
            found = {}
            for end, values in self.derive(self.run.apply('rule', form), at).items():
                found[end] = {self.made(form, at, end, content, tokens) for content, tokens in values}
            self.known[form, at] = found
        return self.known[form, at]

    def made(self, form, start, end, content, tokens):
        content = self.run.apply('content_made', self.codes, form, start, end, content)
        return content, self.run.apply('tokens_made', self.codes, form, start, end, content, tokens)

    # ---- conditions, as `read` of Rules has them

    def holds(self, condition, at):
        name = condition.name.replace('-', '_').replace('=', '_is').replace('≠', '_is_not')
        return getattr(self, name)(at, *condition.args)

    def start_of_line(self, at):
        while at and self.code(at - 1) == MARK:
            at -= 1
        return at == 0 or self.code(at - 1) == 10 or (self.code(at - 1) == 13 and self.code(at) != 10)

    def end_of_input(self, at):
        return at == len(self.codes)

    def lookahead_is(self, at, characters):
        return self.run.call(characters, (self.code(at),))

    def lookahead_is_not(self, at, characters):
        return not self.run.call(characters, (self.code(at),))

    def lookbehind_is(self, at, characters):
        return at > 0 and self.run.call(characters, (self.code(at - 1),))

    def not_before_line_feed(self, at):
        return self.code(at) != 10

    def not_after_carriage_return(self, at):
        return self.code(at - 1) != 13

    def name_ends(self, at):
        return not self.run.call(self.run.lookup('ns-anchor-char', {}), (self.code(at),))

    def tag_ends(self, at):
        return not self.derive(Con('ns-tag-char'), at)

    def reserved_name(self, at):
        return not any(self.codes[at:at + len(word)] == tuple(map(ord, word)) and self.is_white_or_end(at + len(word))
                       for word in ('YAML', 'TAG'))

    def no_comment(self, at):
        return self.code(at) != 35

    def sign_ends(self, at):
        return self.is_white_or_end(at)

    def is_sum(self, at, n, m, k):
        return number(k) == max(number(n), 0) + m

    def no_value(self, at, n):
        at += self.spaces(at, number(n))
        return not (number(n) >= 0 and self.spaces(at - number(n), number(n)) == number(n) and self.code(at) == 58
                    and self.is_white_or_end(at + 1))

    def no_line(self, at, n):
        return number(n) < 0 or not (self.is_empty_line(at, number(n)) or self.is_content_line(at, number(n)))

    def no_trail(self, at, n):
        spaces = self.spaces(at, len(self.codes))
        return not (spaces < number(n) and self.code(at + spaces) == 35)

    def no_comment_line(self, at):
        return all(end == at for end in self.derive(Con('l-comment'), at))

    def no_folded_line(self, at, n):
        for line in self.derive(self.run.call(Con('b-l-folded'), (n, Con('BlockIn'))), at):
            after = line + self.spaces(line, number(n))
            if after - line == number(n) and self.is_content_line(line, number(n)) and not self.is_white_or_end(after):
                return False
        return True

    def auto_detect(self, at, n, k):
        least, widest = (number(n) + 1 if number(n) >= 0 else 0), 0
        while True:
            spaces = self.spaces(at, len(self.codes))
            if not self.is_break(at + spaces):
                break
            widest = max(widest, spaces)
            at = self.line_after(at + spaces)
        begins = at + spaces < len(self.codes) and spaces >= least and not self.is_marker_line(at)
        if begins:
            return number(k) == spaces and widest <= spaces
        return widest <= number(k) and least <= number(k) and self.no_line(at, k)

    # ---- parts of conditions

    def is_break(self, at):
        return self.code(at) in (10, 13)

    def line_after(self, at):
        return at + 2 if self.code(at) == 13 and self.code(at + 1) == 10 else at + 1

    def is_white_or_end(self, at):
        return self.code(at) in (9, 10, 13, 32, NO_CHARACTER)

    def spaces(self, at, most):
        count = 0
        while count < most and self.code(at + count) == 32:
            count += 1
        return count

    def is_empty_line(self, at, n):
        spaces = self.spaces(at, len(self.codes))
        return spaces <= n and self.is_break(at + spaces)

    def is_content_line(self, at, n):
        after = at + self.spaces(at, n)
        return (after - at == n and not self.is_marker(at) and after < len(self.codes)
                and bool(self.run.call(self.run.lookup('nb-char', {}), (self.code(after),))))

    def is_marker(self, at):
        return self.codes[at:at + 3] in ((45,) * 3, (46,) * 3) and self.is_white_or_end(at + 3)

    def is_marker_line(self, at):
        while self.code(at) == MARK:
            at += 1
        return self.is_marker(at)

    def is_clear(self, start, end):
        return not any(self.start_of_line(at) and self.is_marker(at) for at in range(start, end))


BOUNDED = ('at-most', 'excluding-c-forbidden', 'some-m', 'some-k')


def merged(first, second):
    found = {end: set(values) for end, values in first.items()}
    for end, values in second.items():
        found.setdefault(end, set()).update(values)
    return found


def documents(text):
    """What each derivation of the text says, each once."""
    whole = Text(text)
    found = whole.derive(Con('l-yaml-stream'), 0).get(len(text), set())
    return list({whole.run.apply('stream_said', (), tokens) for content, tokens in found})
