"""Runs definitions of the specs folders: functions that are given by clauses, without proofs and relations.

`Definitions(paths)` reads all clauses of the files. `apply(name, arguments)` returns a value: numbers are int, truth values are
bool, lists are tuples, records are dict, and constructors are Con.
"""
import re
from dataclasses import dataclass, field

TOKEN = re.compile(r'[^\s(){};,]+|[(){};,]')
HEX = re.compile(r'0x[0-9A-Fa-f]+$')
# Operators: how tightly they bind, and whether they group to the right.
INFIX = {'∷': (57, True), '++': (55, True), '∪': (60, False), '∖': (60, False), '∙': (50, True), '∣': (40, True),
         '+': (45, False), '-': (45, False), '-ℤ': (45, False), '+ℤ': (45, False), '*': (48, False), '/': (48, False),
         '%': (48, False), '==': (30, False), '&&': (20, True), '||': (15, True), 'less': (70, False), 'to': (70, False)}
POSTFIX = ('⁇', '⋆', '⁺')
CLOSING = {'‹': '›', '⟨': '⟩'}
CONSTRUCTORS = set('''pos negsuc Some None ε never zero suc [] ∷ true false ∙ ∣ ⁇ ⋆ ⁺ less ‹◌› ⟨◌⟩'''.split())


@dataclass(frozen=True)
class Con:
    """A constructor with the arguments that it has so far."""
    name: str
    args: tuple = ()


@dataclass(frozen=True, eq=False)
class Function:
    """A function with the arguments that it has so far."""
    definitions: object
    name: str
    args: tuple = ()


@dataclass(eq=False)
class Closure:
    names: list
    body: object
    env: dict
    args: tuple = field(default=())


class Parser:
    def __init__(self, text):
        self.tokens = TOKEN.findall(text)
        self.at = 0

    def peek(self):
        return self.tokens[self.at] if self.at < len(self.tokens) else None

    def take(self, wanted=None):
        token = self.peek()
        if wanted is not None and token != wanted:
            raise SyntaxError('%s, and not %s, in %s' % (token, wanted, ' '.join(self.tokens)))
        self.at += 1
        return token

    def expression(self, least=0):
        left = self.application()
        while True:
            token = self.peek()
            if token in POSTFIX:
                self.take()
                left = ('call', ('name', token), [left])
            elif token in INFIX and INFIX[token][0] >= least:
                self.take()
                power, right = INFIX[token]
                left = ('infix', token, left, self.expression(power if right else power + 1))
            else:
                return left

    def application(self):
        head = self.atom()
        args = []
        while self.peek() is not None and self.peek() not in INFIX and self.peek() not in POSTFIX and self.peek() not in (
                ')', '}', ';', ',', '›', '⟩', 'then', 'else', 'in', '=', '→', '∷'):
            args.append(self.atom())
        return ('call', head, args) if args else head

    def atom(self):
        token = self.take()
        if token is None:
            raise SyntaxError('the end, and not a term')
        if token == '(':
            parts = [self.expression()]
            while self.peek() == ',':
                self.take()
                parts.append(self.expression())
            self.take(')')
            return parts[0] if len(parts) == 1 else ('tuple', parts)
        if token in CLOSING:
            inner = self.expression()
            self.take(CLOSING[token])
            return ('call', ('name', token + '◌' + CLOSING[token]), [inner])
        if token == 'λ':
            return self.function()
        if token == 'if':
            return self.choice()
        if token == 'let':
            name = self.take()
            self.take('=')
            value = self.expression()
            self.take('in')
            return ('let', name, value, self.expression())
        if token == 'record':
            return self.record()
        if HEX.match(token):
            return ('number', int(token, 16))
        if token.isdigit():
            return ('number', int(token))
        return ('name', token)

    def function(self):
        names = []
        while True:
            token = self.take()
            names.append(token.rstrip('.'))
            if token.endswith('.'):
                return ('function', names, self.expression())

    def choice(self):
        test = self.expression()
        self.take('then')
        first = self.expression()
        self.take('else')
        return ('if', test, first, self.expression())

    def record(self):
        base = None if self.peek() == '{' else self.atom()
        self.take('{')
        fields = {}
        while self.peek() != '}':
            name = self.take()
            self.take('=')
            fields[name] = self.expression()
            if self.peek() == ';':
                self.take()
        self.take('}')
        return ('record', base, fields)


class Definitions:
    def __init__(self, paths, constructors=(), builtins=None):
        self.clauses = {}
        self.constructors = CONSTRUCTORS | set(constructors)
        self.builtins = builtins or {}
        self.constants = {}
        for path in paths:
            self.read(path)

    def read(self, path):
        """Reads the clauses and the constructors of a file. Relations and types are passed over."""
        blocks = []
        with open(path, encoding='utf-8') as file:
            for line in file:
                line = line.rstrip('\n')
                text = re.sub(r'(^|\s)--.*', '', line)
                if not text.strip():
                    continue
                if text[0].isspace() and blocks:
                    blocks[-1] += '\n' + text
                else:
                    blocks.append(text)
        for block in blocks:
            head = block.split('\n')[0]
            if re.match(r'(pub )?data ', head):
                self.constructors |= set(re.findall(r'^  (\S+) :', block, re.M))
            elif not re.match(r'(unfoldable |abbrev |pub |use |record |infix)', head):
                self.add(block)

    def add(self, block):
        parser = Parser(block)
        # A clause begins with its name, and has its patterns before the first `=` outside parentheses.
        name = parser.take()
        patterns = []
        try:
            while parser.peek() not in ('=', None):
                patterns.append(parser.atom())
            parser.take('=')
            body = parser.expression()
        except SyntaxError:
            return
        if parser.peek() is None:
            self.clauses.setdefault(name, []).append((patterns, body))

    # ---- values

    def lookup(self, name, env):
        if name in env:
            return env[name]
        if name in ('true', 'false'):
            return name == 'true'
        if name == '[]':
            return ()
        if name == 'zero':
            return 0
        if name[0] == '"':
            return tuple(map(ord, name[1:-1]))
        if name in self.builtins:
            return self.builtins[name]
        if name in self.clauses:
            if not self.clauses[name][0][0]:
                if name not in self.constants:
                    self.constants[name] = self.value(self.clauses[name][0][1], {})
                return self.constants[name]
            return Function(self, name)
        if '◌' + name + '◌' in self.clauses:
            return Function(self, '◌' + name + '◌')
        if name in self.constructors:
            return Con(name)
        if '.' in name and name.split('.')[0] in env:
            value = env[name.split('.')[0]]
            for part in name.split('.')[1:]:
                value = value[int(part)] if part.isdigit() else value[part]
            return value
        raise NameError(name)

    def call(self, function, args):
        for arg in args:
            function = self.call_one(function, arg)
        return function

    def call_one(self, function, arg):
        if isinstance(function, Con):
            return Con(function.name, function.args + (arg,))
        if isinstance(function, Closure):
            args = function.args + (arg,)
            if len(args) < len(function.names):
                return Closure(function.names, function.body, function.env, args)
            return self.value(function.body, {**function.env, **dict(zip(function.names, args))})
        if isinstance(function, Function):
            args = function.args + (arg,)
            arity = len(self.clauses[function.name][0][0])
            return self.run(function.name, args) if len(args) == arity else Function(self, function.name, args)
        return function(arg)

    def run(self, name, args):
        for patterns, body in self.clauses[name]:
            env = {}
            if all(self.matches(pattern, arg, env) for pattern, arg in zip(patterns, args)):
                return self.value(body, env)
        raise ValueError('no clause of %s takes %r' % (name, args))

    def apply(self, name, *args):
        return self.call(self.lookup(name, {}), args)

    def matches(self, pattern, value, env):
        kind = pattern[0]
        if kind == 'number':
            return value == pattern[1]
        if kind == 'name':
            return self.matches_name(pattern[1], value, env)
        if kind == 'tuple':
            return all(self.matches(part, item, env) for part, item in zip(pattern[1], value))
        if kind == 'infix' and pattern[1] == '∷':
            return bool(value) and self.matches(pattern[2], value[0], env) and self.matches(pattern[3], value[1:], env)
        if kind == 'infix':
            return isinstance(value, Con) and value.name == pattern[1] and all(
                self.matches(part, item, env) for part, item in zip(pattern[2:], value.args))
        if kind == 'call' and pattern[1] == ('name', 'suc'):
            return value > 0 and self.matches(pattern[2][0], value - 1, env)
        return isinstance(value, Con) and value.name == pattern[1][1] and len(value.args) == len(pattern[2]) and all(
            self.matches(part, item, env) for part, item in zip(pattern[2], value.args))

    def matches_name(self, name, value, env):
        if name in ('true', 'false'):
            return value is (name == 'true')
        if name == '[]':
            return value == ()
        if name == 'zero':
            return value == 0
        if name in self.constructors:
            return value == Con(name)
        env[name] = value
        return True

    def value(self, term, env):
        kind = term[0]
        if kind == 'number':
            return term[1]
        if kind == 'name':
            return self.lookup(term[1], env)
        if kind == 'call':
            if term[1] == ('name', 'suc'):
                return self.value(term[2][0], env) + 1
            return self.call(self.value(term[1], env), [self.value(arg, env) for arg in term[2]])
        if kind == 'infix':
            return self.infix(term[1], term[2], term[3], env)
        if kind == 'if':
            return self.value(term[2] if self.value(term[1], env) else term[3], env)
        if kind == 'let':
            return self.value(term[3], {**env, term[1]: self.value(term[2], env)})
        if kind == 'function':
            return Closure(term[1], term[2], env)
        if kind == 'tuple':
            return tuple(self.value(part, env) for part in term[1])
        base = dict(self.value(term[1], env)) if term[1] else {}
        return Record({**base, **{name: self.value(part, env) for name, part in term[2].items()}})

    def infix(self, operator, left, right, env):
        if operator in ('&&', '||'):
            first = self.value(left, env)
            return self.value(right, env) if first is (operator == '&&') else first
        a, b = self.value(left, env), self.value(right, env)
        if operator == '∷':
            return (a,) + b
        if operator in ('++', '+'):
            return a + b
        if operator == '-':
            return max(a - b, 0)
        if operator == '*':
            return a * b
        if operator == '==':
            return a == b
        if operator == '-ℤ':
            return integer(number(a) - number(b))
        if operator == '+ℤ':
            return integer(number(a) + number(b))
        if operator in ('∙', '∣', 'less'):
            return Con(operator, (a, b))
        return self.call(self.lookup(operator, env), (a, b))


class Record(dict):
    """A record, which can be an element of a set."""

    def __hash__(self):
        return hash(tuple(sorted(self.items(), key=lambda item: item[0])))


def number(value):
    """An integer of the definitions as a number."""
    return value.args[0] if value.name == 'pos' else -1 - value.args[0]


def integer(value):
    return Con('pos', (value,)) if value >= 0 else Con('negsuc', (-1 - value,))
