"""Settings of yamllint: which settings of yamlfmt come nearest, and which have no counterpart."""
import os
import re

from found_settings import brief
from yaml_values import OLD_WORDS, Refused, first_document, read
from yamllint_rules import DEFAULT, NO_COUNTERPART, RELAXED, RULES, notes_of_rules

OF_EACH_RULE = ('level', 'ignore', 'ignore-from-file')
KEYS = ('extends', 'rules', 'ignore', 'ignore-from-file')
# A pattern of `exclude`: each class is closed and has no name, and the last sign is no backslash.
MEMBER = r'(?:[^\]\[\\]|\\.|\[(?!:))'
PATTERN = re.compile(r'(?:[^\[\\]|\\.|\[(?:[!^]|(?![!^]))(?:\]|%s)%s*\])*' % (MEMBER, MEMBER), re.S)


def is_right(value, default):
    """Whether an option may have this value: of the default's type, or a word that some options accept."""
    if isinstance(default, list):
        return isinstance(value, list)
    if isinstance(default, (bool, str)):
        return isinstance(value, (bool, str)) or default == 'consistent' and isinstance(value, int)
    return isinstance(value, int) and not isinstance(value, bool)


def options_of(found, name, value):
    """The options that a file gives to a rule, or False if it disables the rule."""
    if value in ('enable', 'disable', False):
        return {} if value == 'enable' else False
    if not isinstance(value, dict):
        raise Refused(2, '%s: the rule %s is not enable, disable or a mapping' % (found.path, name))
    if 'level' in value:
        found.note('level', 'yamlfmt has no levels')
    if 'ignore' in value or 'ignore-from-file' in value:
        found.note('%s: ignore' % name, 'yamlfmt can only leave out files for all rules')
    options = {option: given for option, given in value.items() if option not in OF_EACH_RULE}
    for option, given in options.items():
        if name in RULES and option not in RULES[name]:
            found.note('%s: %s' % (name, option), 'this option is unknown')
        elif name in RULES and not is_right(given, RULES[name][option]):
            raise Refused(2, '%s: %s: %s is no value for %s' % (found.path, name, brief(given), option))
    return options


def patterns_in(lines):
    """The patterns of lines, without empty lines and comments."""
    return [line.rstrip() for line in lines if line.strip() and not line.startswith('#')]


def texts_of(found, given, key):
    """The texts of a list, or one text."""
    texts = given[key] if isinstance(given[key], list) else [given[key]]
    if not all(isinstance(text, str) and '\0' not in text for text in texts):
        raise Refused(2, '%s: %s is no text and no list of texts' % (found.path, key))
    return texts


def ignored(found, given):
    """The patterns of `ignore` or `ignore-from-file`, or None if the file has neither."""
    if 'ignore-from-file' not in given:
        if 'ignore' not in given:
            return None
        return patterns_in(line for text in texts_of(found, given, 'ignore') for line in text.split('\n'))
    patterns = []
    for name in texts_of(found, given, 'ignore-from-file'):
        path = os.path.join(os.path.dirname(found.path), name)
        try:
            patterns += patterns_in(read(path).decode('utf-8').split('\n'))
        except UnicodeDecodeError:
            raise Refused(2, '%s: it is not UTF-8' % path) from None
    return patterns


def merged(base, own):
    """The rules of a file over those that it extends."""
    result = dict(base)
    for name, value in own.items():
        has_both = isinstance(value, dict) and isinstance(base.get(name), dict)
        result[name] = {**base[name], **value} if has_both else value
    return result


def rules_and_patterns(found, path, seen):
    """The rules and the ignored patterns of a file, with those of the file that it extends."""
    if os.path.realpath(path) in seen:
        raise Refused(2, '%s: it extends itself' % path)
    outer, found.path = found.path, path
    given = first_document(path, OLD_WORDS)
    if not isinstance(given, dict) or not isinstance(given.get('rules') or {}, dict):
        raise Refused(2, '%s: it is no mapping with rules' % path)
    own = {name: options_of(found, name, value) for name, value in (given.get('rules') or {}).items()}
    patterns = ignored(found, given)
    for name in given:
        if name not in KEYS:
            has_names = name == 'yaml-files'
            found.note(name, 'yamlfmt formats the files that you name' if has_names else 'yamlfmt has no such setting')
    base, base_patterns = extended(found, given, path, {*seen, os.path.realpath(path)})
    found.path = outer
    return merged(base, own), base_patterns if patterns is None else patterns


def extended(found, given, path, seen):
    """The rules and the ignored patterns that `extends` names."""
    if 'extends' not in given:
        return {}, []
    if isinstance(given['extends'], list):
        raise Refused(2, '%s: extends is a list' % found.path)
    name = texts_of(found, given, 'extends')[0]
    if name in ('default', 'relaxed'):
        return (DEFAULT if name == 'default' else RELAXED), []
    return rules_and_patterns(found, os.path.join(os.path.dirname(path), name), seen)


def exclude(found, patterns):
    good = [text for text in patterns if PATTERN.fullmatch(text)]
    if good:
        found.need('exclude', good, 'ignore')
    for text in patterns:
        if text not in good:
            found.note('ignore', 'yamlfmt has no such pattern: ' + text)


def from_yamllint(found):
    rules, patterns = rules_and_patterns(found, found.path, set())
    on = {name: {**RULES[name], **rules[name]} for name in RULES if rules.get(name, False) is not False}
    if 'indentation' in on:
        spaces, sequences = on['indentation']['spaces'], on['indentation']['indent-sequences']
        if not isinstance(spaces, str):
            found.need('indent', int(spaces), 'indentation: spaces')
        if isinstance(sequences, bool):
            found.need('seq_indent', sequences, 'indentation: indent-sequences')
    if 'line-length' in on:
        found.need('max_line', on['line-length']['max'], 'line-length: max')
    if on.get('quoted-strings', {}).get('quote-type') in ('single', 'double'):
        found.need('quotes', on['quoted-strings']['quote-type'], 'quoted-strings: quote-type')
    if 'document-start' in on:
        found.need('document_start', 'always' if on['document-start']['present'] else 'keep', 'document-start')
    else:
        found.prefer('document_start', 'keep', 'document-start is off')
    if 'comments-indentation' in on:
        found.need('comments', 'next', 'comments-indentation')
    else:
        found.prefer('comments', 'block', 'comments-indentation is off')
    exclude(found, patterns)
    for name, value in rules.items():
        if name in NO_COUNTERPART and value is not False:
            found.note(name, 'yamlfmt has no such rule')
        elif name not in NO_COUNTERPART and name not in RULES:
            found.note(name, 'this rule is unknown')
    notes_of_rules(found, on)
