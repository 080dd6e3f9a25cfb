"""What import_settings finds: settings of yamlfmt, and notes on what has no counterpart."""
import json
from collections import namedtuple

RANGES = {'indent': (2, 8), 'max_line': (40, 1000)}

# The value of a key, the setting that it comes from and its file, and whether another value would break that setting.
Kept = namedtuple('Kept', 'value setting path is_needed')


def escaped(sign):
    return sign if sign.isprintable() else ('\\u%04x' if sign <= '\uffff' else '\\U%08x') % ord(sign)


def printed(text):
    """The text, with escapes for characters that a comment or a terminal can't show."""
    return ''.join(map(escaped, str(text)))


def value_word(value):
    """A value as TOML writes it."""
    if isinstance(value, list):
        return '[%s]' % ', '.join(map(value_word, value))
    return printed(json.dumps(value, ensure_ascii=False))


def brief(value):
    """A value for a message; of a collection only the kind."""
    if isinstance(value, (dict, list)):
        return 'a mapping' if isinstance(value, dict) else 'a list'
    return value_word(value)


class Found:
    def __init__(self):
        self.values = {}
        self.notes = []
        self.path = ''

    def note(self, setting, reason):
        note = printed('%s: %s: %s' % (self.path, setting, reason))
        if note not in self.notes:
            self.notes.append(note)

    def need(self, key, value, setting):
        """Sets a key because of a setting. A number out of range becomes the nearest one."""
        if key in RANGES:
            low, high = RANGES[key]
            near = max(low, min(high, value))
            if near != value:
                self.note(setting, '%s becomes %d; yamlfmt allows %d to %d' % (value, near, low, high))
            value = near
        kept = self.values.get(key)
        if kept is None or not kept.is_needed:
            self.values[key] = Kept(value, setting, self.path, True)
        elif kept.value != value:
            self.note(setting, 'it needs %s = %s, but %s needs %s' % (key, brief(value), kept.path, brief(kept.value)))

    def prefer(self, key, value, setting):
        """Sets a key that no setting needs."""
        self.values.setdefault(key, Kept(value, setting, self.path, False))
