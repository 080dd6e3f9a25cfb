"""Settings of Prettier: which settings of yamlfmt come nearest, and which have no counterpart."""
import re

from found_settings import brief
from yaml_values import Refused, first_document

# The options that matter for YAML, with their defaults.
OPTIONS = {'printWidth': 80, 'tabWidth': 2, 'singleQuote': False, 'bracketSpacing': True, 'proseWrap': 'preserve',
           'endOfLine': 'lf', 'requirePragma': False, 'insertPragma': False}
# Options that change nothing in YAML, or only flow collections over several lines, which yamlfmt never writes.
ELSEWHERE = set('''$schema arrowParens bracketSameLine embeddedLanguageFormatting experimentalOperatorPosition
    experimentalTernaries htmlWhitespaceSensitivity jsxBracketSameLine jsxSingleQuote objectWrap quoteProps semi
    singleAttributePerLine trailingComma useTabs vueIndentScriptAndStyle'''.split())
PROSE = {'preserve': 'yamlfmt writes each plain or quoted scalar on one line',
         'always': 'yamlfmt breaks no lines, and writes each plain or quoted scalar on one line',
         'never': 'yamlfmt does not join the lines of block scalars'}
ONE_STYLE = 'yamlfmt has one style for all files, so the options for %s %s'
EACH_YAML_FILE = {'*', '*.y?(a)ml'}
HALF = {'*.yaml', '*.yml'}


def without_braces(pattern):
    """The patterns that a pattern with braces means, such as `*.{yaml,yml}`."""
    found = re.search(r'\{([^{}]*)\}', pattern)
    if not found or pattern.count('{') > 8:
        return [pattern]
    return [whole for part in found[1].split(',')
            for whole in without_braces(pattern[:found.start()] + part + pattern[found.end():])]


def listed(value):
    return value if isinstance(value, list) else [value]


def overridden(found, options, override, place):
    """The options after an override. It counts only if it is for all files with an extension of YAML."""
    if not isinstance(override, dict) or not isinstance(override.get('options', {}), dict):
        raise Refused(2, '%s: %s is not a mapping with options' % (found.path, place))
    files = [str(name) for name in listed(override.get('files', []))]
    patterns = {re.sub(r'^(\*\*/)+', '', part) for name in files for part in without_braces(name)}
    if patterns & (EACH_YAML_FILE | HALF) and 'excludeFiles' not in override:
        if not patterns & EACH_YAML_FILE and not HALF <= patterns:
            found.note(place, ONE_STYLE % (' '.join(files), 'count for all'))
        return {**options, **override.get('options', {})}
    if any(re.search(r'\.ya?ml$', name) or not re.search(r'\.[a-z0-9]+$', name) for name in patterns):
        found.note(place, ONE_STYLE % (' '.join(files), 'do not count'))
    return options


def right_options(found, options):
    """The options that matter for YAML and have a right value."""
    result = {}
    for name, value in options.items():
        if name in OPTIONS:
            is_right = isinstance(value, type(OPTIONS[name])) or name == 'printWidth' and value == float('inf')
            is_right = is_right and isinstance(value, bool) == isinstance(OPTIONS[name], bool)
            if is_right and (name != 'proseWrap' or value in PROSE):
                result[name] = value
            else:
                found.note(name, '%s is no value for it' % brief(value))
        elif name not in ELSEWHERE:
            found.note(name, 'yamlfmt has no such setting')
    return result


def given_options(found):
    """The options of a file for YAML files."""
    given = first_document(found.path)
    if given is None:
        return {}
    if isinstance(given, str):
        raise Refused(2, '%s: it names the package %s; pass the file in that package' % (found.path, brief(given)))
    if not isinstance(given, dict):
        raise Refused(2, '%s: it is no mapping' % found.path)
    options = {name: value for name, value in given.items() if name != 'overrides'}
    for number, override in enumerate(listed(given.get('overrides') or [])):
        options = overridden(found, options, override, 'overrides[%d]' % number)
    return options


def from_prettier(found):
    given = right_options(found, given_options(found))
    options = {**OPTIONS, **given}

    def named(option):
        return option if option in given else option + ' (default)'

    found.need('indent', options['tabWidth'], named('tabWidth'))
    found.need('max_line', options['printWidth'], named('printWidth'))
    found.need('quotes', 'single' if options['singleQuote'] else 'double', named('singleQuote'))
    found.need('seq_indent', True, 'Prettier indents sequences')
    found.prefer('document_start', 'keep', 'Prettier adds no first ---')
    found.prefer('comments', 'block', 'Prettier keeps comments in their blocks')
    if options['bracketSpacing']:
        found.note(named('bracketSpacing'), 'yamlfmt writes {a: b}, without spaces inside braces')
    found.note(named('proseWrap'), PROSE[options['proseWrap']])
    if options['tabWidth'] > 2:
        spaces = found.values['indent'].value - 1
        found.note('tabWidth', 'yamlfmt writes %d spaces after a -, and Prettier one' % spaces)
    if options['endOfLine'] != 'lf':
        found.note('endOfLine', 'yamlfmt writes LF')
    if options['requirePragma']:
        found.note('requirePragma', 'yamlfmt also formats files without this comment')
    if options['insertPragma']:
        found.note('insertPragma', 'yamlfmt inserts no comment')
