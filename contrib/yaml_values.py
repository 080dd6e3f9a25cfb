"""Reads YAML and JSON with `yamlfmt events`, for import_settings."""
import os
import re
import shutil
import subprocess

HERE = os.path.dirname(os.path.realpath(__file__))
ESCAPES = {'\\\\': '\\', '\\n': '\n', '\\t': '\t', '\\r': '\r', '\\b': '\b'}
EVENT = re.compile(r'([+=-][A-Z]{3})(?: ---| \.\.\.| \[\]| \{\})?'
                   r'(?: \*(.*)|(?: &(\S+))?(?: <.*?>)?(?: ([:\'"|>])(.*))?)')
WORDS = {'': None, '~': None, 'null': None, 'true': True, 'false': False, '.inf': float('inf')}
# In YAML 1.1 these are booleans too.
OLD_WORDS = {**WORDS, 'yes': True, 'no': False, 'on': True, 'off': False}


class Refused(Exception):
    """Why there is no result, and the exit status."""

    def __init__(self, status, reason):
        super().__init__(reason)
        self.status = status


def program():
    """The path of yamlfmt."""
    named = os.environ.get('YAMLFMT_PROGRAM')
    prefix, is_package, _ = HERE.rpartition('/share/yamlfmt/contrib')
    own = prefix + '/bin/yamlfmt' if is_package else os.path.dirname(HERE) + '/yamlfmt'
    found = shutil.which(named) if named else shutil.which(own) or shutil.which('yamlfmt')
    if not found:
        raise Refused(3, 'YAMLFMT_PROGRAM: %s is not a program' % named if named else 'there is no yamlfmt in PATH')
    return os.path.abspath(found)


def read(path):
    try:
        with open(path, 'rb') as file:
            return file.read()
    except OSError as error:
        raise Refused(3, '%s: %s' % (path, error.strerror)) from None


def events(path):
    """The events of a file. The program runs in /, so that it takes no settings of the work tree."""
    text, command = read(path), [program(), 'events']
    try:
        done = subprocess.run(command, input=text, cwd='/', stdout=subprocess.PIPE, stderr=subprocess.PIPE)
    except OSError as error:
        raise Refused(3, 'yamlfmt does not run: %s' % error.strerror) from None
    said = done.stderr.decode('utf-8', 'replace').strip()
    if done.returncode == 2:
        raise Refused(2, '%s: it is not YAML: %s' % (path, said))
    if done.returncode:
        raise Refused(3, 'yamlfmt fails with status %d%s' % (done.returncode, said and ': ' + said))
    return done.stdout.decode('utf-8').split('\n')[:-1]


def unescaped(text):
    return re.sub(r'\\(?:x(..)|.)', lambda found: chr(int(found[1], 16)) if found[1] else ESCAPES[found[0]], text)


def plain_value(text, words):
    """The value of a plain scalar: a word of the table, a whole number, or the text."""
    is_regular = text in (text.lower(), text.upper(), text.capitalize())
    if is_regular and text.lower() in words:
        return words[text.lower()]
    return int(text) if re.fullmatch(r'[-+]?[0-9]{1,18}', text) else text


def mapping(items):
    """A mapping from alternating keys and values. All keys that are collections are one key."""
    keys = ['a collection' if isinstance(key, (dict, list)) else key for key in items[::2]]
    return dict(zip(keys, items[1::2]))


def first_document(path, words=WORDS):
    """The value of the first document of a file, or None if it has none."""
    collections, openers, anchors = [[]], [], {}
    for line in events(path):
        kind, alias, anchor, sign, text = EVENT.fullmatch(line).groups()
        if kind == '-DOC':
            break
        if kind in ('+SEQ', '+MAP'):
            collections.append([])
            openers.append(anchor)
        if kind not in ('=ALI', '=VAL', '-SEQ', '-MAP'):
            continue
        if kind == '=ALI':
            value = anchors.get(alias)
        elif kind == '=VAL':
            value = plain_value(unescaped(text), words) if sign == ':' else unescaped(text)
        else:
            items, anchor = collections.pop(), openers.pop()
            value = items if kind == '-SEQ' else mapping(items)
        anchors[anchor] = value
        collections[-1].append(value)
    return collections[0][0] if collections[0] else None
