"""The rules of yamllint 1.29 and some newer ones: their options and defaults, and how yamlfmt differs."""

FLOW = {'forbid': False, 'min-spaces-inside': 0, 'max-spaces-inside': 0, 'min-spaces-inside-empty': -1,
        'max-spaces-inside-empty': -1}
# The rules that yamlfmt has a counterpart for, with their options and defaults.
RULES = {
    'anchors': {'forbid-undeclared-aliases': True, 'forbid-duplicated-anchors': False, 'forbid-unused-anchors': False},
    'braces': FLOW,
    'brackets': FLOW,
    'colons': {'max-spaces-before': 0, 'max-spaces-after': 1},
    'commas': {'max-spaces-before': 0, 'min-spaces-after': 1, 'max-spaces-after': 1},
    'comments': {'require-starting-space': True, 'ignore-shebangs': True, 'min-spaces-from-content': 2},
    'comments-indentation': {},
    'document-end': {'present': True},
    'document-start': {'present': True},
    'empty-lines': {'max': 2, 'max-start': 0, 'max-end': 0},
    'hyphens': {'max-spaces-after': 1},
    'indentation': {'spaces': 'consistent', 'indent-sequences': True, 'check-multi-line-strings': False},
    'key-duplicates': {'forbid-duplicated-merge-keys': False},
    'line-length': {'max': 80, 'allow-non-breakable-words': True, 'allow-non-breakable-inline-mappings': False},
    'new-line-at-end-of-file': {},
    'new-lines': {'type': 'unix'},
    'quoted-strings': {'quote-type': 'any', 'required': True, 'extra-required': [], 'extra-allowed': [],
                       'allow-quoted-quotes': False, 'check-keys': False},
    'trailing-spaces': {},
}
NO_COUNTERPART = ('empty-values', 'float-values', 'key-ordering', 'octal-values', 'truthy')
# The rules of `extends: default` and of `extends: relaxed`.
DEFAULT = {name: {} for name in (*RULES, 'truthy') if name not in ('document-end', 'quoted-strings')}
RELAXED = {
    **DEFAULT,
    'braces': {'max-spaces-inside': 1},
    'brackets': {'max-spaces-inside': 1},
    'indentation': {'indent-sequences': 'consistent'},
    'line-length': {'allow-non-breakable-inline-mappings': True},
    'comments': False,
    'comments-indentation': False,
    'document-start': False,
    'truthy': False,
}
# A rule, a test of its options, and the note if the test holds.
CASES = (
    ('anchors', lambda rule: rule['forbid-duplicated-anchors'] or rule['forbid-unused-anchors'],
     'yamlfmt refuses only aliases without an anchor'),
    ('braces', lambda rule: rule['forbid'], 'yamlfmt allows flow mappings'),
    ('braces', lambda rule: rule['min-spaces-inside'] > 0, 'yamlfmt writes {a: b}, without spaces inside braces'),
    ('braces', lambda rule: rule['min-spaces-inside-empty'] > 0, 'yamlfmt writes {}, without spaces'),
    ('brackets', lambda rule: rule['forbid'], 'yamlfmt allows flow sequences'),
    ('brackets', lambda rule: rule['min-spaces-inside'] > 0, 'yamlfmt writes [a], without spaces inside brackets'),
    ('brackets', lambda rule: rule['min-spaces-inside-empty'] > 0, 'yamlfmt writes [], without spaces'),
    ('colons', lambda rule: rule['max-spaces-after'] == 0, 'yamlfmt writes one space after a colon'),
    ('commas', lambda rule: rule['max-spaces-after'] == 0 or rule['min-spaces-after'] > 1,
     'yamlfmt writes one space after a comma'),
    ('comments', lambda rule: rule['require-starting-space'], 'yamlfmt adds no space after a #'),
    ('comments', lambda rule: rule['min-spaces-from-content'] > 2, 'yamlfmt writes two spaces before a comment'),
    ('document-end', lambda rule: rule['present'], 'yamlfmt removes ... unless directives follow'),
    ('document-start', lambda rule: not rule['present'], 'yamlfmt removes no ---, and writes it between documents'),
    ('empty-lines', lambda rule: rule['max'] == 0, 'yamlfmt keeps a blank line before an entry or a comment'),
    ('indentation', lambda rule: rule['check-multi-line-strings'], 'yamlfmt keeps the spaces in block scalars'),
    ('line-length', lambda rule: rule['allow-non-breakable-words'] or rule['allow-non-breakable-inline-mappings'],
     'the rule line-length of yamlfmt also reports lines that can\'t be broken'),
    ('new-lines', lambda rule: rule['type'] == 'dos', 'yamlfmt writes LF'),
    ('quoted-strings', lambda rule: rule['required'] is True or rule['extra-required'], 'yamlfmt adds no quotes'),
    ('quoted-strings', lambda rule: rule['required'] == 'only-when-needed', 'yamlfmt removes no quotes'),
    ('trailing-spaces', lambda rule: True, 'yamlfmt keeps white space at the ends of lines in block scalars'),
)


def notes_of_rules(found, on):
    """Notes the differences, for the rules that are on."""
    for name, holds, reason in CASES:
        if name in on and holds(on[name]):
            found.note(name, reason)
    spaces = found.values['indent'].value - 1 if 'indent' in found.values else 1
    if 'hyphens' in on and -1 < on['hyphens']['max-spaces-after'] < spaces:
        found.note('hyphens', 'with this indent yamlfmt writes %d spaces after a -' % spaces)
    for name, own in (('line-length', 'line-length'), ('key-duplicates', 'repeated-keys')):
        if name not in on:
            found.note(name, 'it is off; use yamlfmt check --without ' + own)
