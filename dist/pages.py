#!/usr/bin/env python3
"""Makes the man page and the shell completions of yamlfmt from the output of --help.

Usage: dist/pages.py PROGRAM FOLDER

It writes yamlfmt.1, yamlfmt.bash, _yamlfmt (for zsh) and yamlfmt.fish into FOLDER. All commands, options and arguments
in them come from the program's help; the script fails at a line of help that it can't read. The other text of the man
page is in dist/yamlfmt.1.in, and its date is SOURCE_DATE_EPOCH.
"""
import dataclasses
import os
import re
import subprocess
import sys
import time

HERE = os.path.dirname(os.path.abspath(__file__))


@dataclasses.dataclass
class Option:
    short: str  # '-h', or nothing
    long: str  # '--help'
    value: str  # 'FILE', 'RULES', or nothing
    about: str
    values: list = ()  # the names that the value may be, or that it lists with commas between; of a file, none

    def names(self):
        return [name for name in (self.short, self.long) if name]

    def is_list(self):
        """Whether the value is a list of names, with commas between."""
        return self.value == 'RULES'


@dataclasses.dataclass
class Argument:
    name: str  # 'FILE', 'FILE ...', 'NAME'
    about: str
    values: list  # the names that it may be; of a file, none


@dataclasses.dataclass
class Command:
    name: str
    about: str
    options: list
    arguments: list

    def takes_files(self):
        return any(not argument.values for argument in self.arguments)

    def names(self):
        """The names that its arguments may be."""
        return [name for argument in self.arguments for name in argument.values]

    def is_help(self):
        """Whether it is the command `help`, which takes the name of another command."""
        return self.name == 'help'


def said(program, *words):
    return subprocess.run([program, *words], check=True, stdout=subprocess.PIPE, text=True, stdin=subprocess.DEVNULL).stdout


def parts(text):
    """The first line of a help text, and the lines below each of its headings."""
    found, heading = {}, None
    about, *lines = text.splitlines()
    for line in lines:
        if re.fullmatch(r'[A-Z][a-z]+:', line):
            heading = line[:-1]
            found[heading] = []
        elif line and not line.startswith('Usage: '):
            if heading is None:
                sys.exit('a line of help without a heading: %r' % line)
            found[heading].append(line)
    return about, found


def rows(pattern, lines):
    for line in lines:
        row = re.fullmatch(pattern, line)
        if not row:
            sys.exit('an unknown kind of line of help: %r' % line)
        yield row


def options(lines):
    pattern = r' +(?:(-\w), )?(--[\w-]+)(?: <(\w+)>)?  +(.+)'
    return [Option(row[1] or '', row[2], row[3] or '', row[4]) for row in rows(pattern, lines)]


def values(program, *words):
    """The possible values of an option or an argument: the refusal of the words, which give it a wrong value, lists
    them."""
    refusal = subprocess.run([program, *words], stderr=subprocess.PIPE, text=True, stdin=subprocess.DEVNULL).stderr
    listed = re.search(r'\[possible values: (.+)\]', refusal)
    if not listed:
        sys.exit('the values of %s are not known: %r' % (' '.join(words), refusal))
    return listed[1].split(', ')


def command(program, name, about):
    # `help` is clap's own: its arguments are the names of the others.
    if name == 'help':
        return Command(name, about, [], [])
    _, found = parts(said(program, name, '--help'))
    # An option with a FILE, LINES, an N or a NAME takes any text, and an argument FILE too.
    taken = [option if option.value in ('', 'FILE', 'LINES', 'N', 'NAME')
             else dataclasses.replace(option, values=values(program, name, option.long + '='))
             for option in options(found.get('Options', []))]
    arguments = [Argument(row[1] + (' ...' if row[2] else ''), row[3],
                          [] if row[1] == 'FILE' else values(program, name, '='))
                 for row in rows(r' +\[(\w+)\](\.\.\.)?  +(.+)', found.get('Arguments', []))]
    return Command(name, about, taken, arguments)


def whole(program):
    """The purpose of the program, its options and its commands."""
    about, found = parts(said(program, '--help'))
    named = [(row[1], row[2]) for row in rows(r' +(\w+)  +(.+)', found['Commands'])]
    return about, options(found['Options']), [command(program, name, text) for name, text in named]


# The man page.

def roff(text):
    text = text.replace('\\', '\\e').replace('-', '\\-')
    return '\\&' + text if text[:1] in ('.', "'") else text


def roff_option(option):
    names = ', '.join('\\fB%s\\fR' % roff(name) for name in option.names())
    return names + (' \\fI%s\\fR' % option.value if option.value else '')


def synopsis(commands):
    for one in commands:
        words = ['\\fByamlfmt %s\\fR' % one.name]
        words += ['[%s]' % roff_option(dataclasses.replace(option, short='')) for option in one.options if option.long != '--help']
        words += ['[\\fI%s\\fR]' % argument.name for argument in one.arguments] + ['[\\fICOMMAND\\fR]'] * one.is_help()
        yield from (' '.join(words), '.br')
    yield '\\fByamlfmt\\fR \\fB\\-\\-version\\fR'


def described(option):
    return ['.TP', roff_option(option), roff(option.about) + '.']


def man_commands(commands):
    for one in commands:
        yield from ('.SS yamlfmt ' + one.name, roff(one.about) + '.')
        for argument in one.arguments:
            yield from ('.TP', '\\fI%s\\fR' % argument.name, roff(argument.about) + '.')
        for option in one.options:
            yield from described(option)


def man(program):
    _, own, commands = whole(program)
    day = time.strftime('%Y-%m-%d', time.gmtime(int(os.environ.get('SOURCE_DATE_EPOCH') or time.time())))
    fill = {
        '@HEAD@': ['.TH YAMLFMT 1 %s "%s" "User Commands"' % (day, said(program, '--version').splitlines()[0])],
        '@SYNOPSIS@': synopsis(commands),
        '@COMMANDS@': man_commands(commands),
        '@OPTIONS@': [line for option in own for line in described(option)],
    }
    with open(HERE + '/yamlfmt.1.in', encoding='utf-8') as frame:
        lines = [line.rstrip('\n') for line in frame]
    return '\n'.join(line for given in lines for line in fill.get(given, [given])) + '\n'


# The completions.

def names_of(given):
    return ' '.join(name for option in given for name in option.names())


def bash_value(option):
    """The case of an option with a value: what is offered for it."""
    if option.value in ('LINES', 'N'):
        return "        %s) offered='' files='' ;;" % option.long
    if not option.values:
        return '        %s) files=yes ;;' % option.long
    front = ' front=${word%"${word##*,}"}' if option.is_list() else ''
    return "        %s) offered='%s'%s files='' ;;" % (option.long, ' '.join(option.values), front)


def bash(program):
    _, own, commands = whole(program)
    names = [one.name for one in commands]
    cases = ["        '') offered='%s %s' ;;" % (' '.join(names), names_of(own))]
    for one in commands:
        files = ' files=yes' if one.takes_files() else ''
        offered = ' '.join([*one.names(), *[name for option in one.options for name in option.names()]])
        cases.append("        %s) offered='%s'%s ;;" % (one.name, offered or ' '.join(names), files))
    valued = {option.long: option for one in commands for option in one.options if option.value}
    after = [bash_value(option) for _, option in sorted(valued.items())]
    return '''\
# Completes the command line of yamlfmt in bash. Made from `yamlfmt --help`.
_yamlfmt() {
    local word=$2 previous=$3 verb='' offered='' files='' front='' place
    COMPREPLY=()
    for ((place = 1; place < COMP_CWORD; place++)); do
        case ${COMP_WORDS[place]} in
            %s)
                verb=${COMP_WORDS[place]}
                break
                ;;
        esac
    done
    case $verb in
%s
    esac
    # An option with a value needs a file, or names with commas between; `--config=` arrives as three words.
    [[ $word != = ]] || word=''
    [[ $previous != = ]] || previous=${COMP_WORDS[COMP_CWORD - 2]}
    case $previous in
%s
    esac
    if [[ $files && $word != -* ]]; then
        compopt -o filenames 2> /dev/null
        mapfile -t COMPREPLY < <(compgen -f -- "$word")
    else
        mapfile -t COMPREPLY < <(compgen -P "$front" -W "$offered" -- "${word#"$front"}")
    fi
}
complete -F _yamlfmt yamlfmt
''' % (' | '.join(names), '\n'.join(cases), '\n'.join(after))


def quoted(text):
    """The text as a word of bash and zsh."""
    return "'%s'" % text.replace("'", "'\\''")


def zsh_option(option):
    about = quoted('[%s]' % option.about.replace(']', '\\]'))[1:-1]
    if option.value:
        taken = '(%s)' % ' '.join(option.values) if option.values else '_files' if option.value == 'FILE' else ' '
        if option.is_list():
            taken = '_values -s , %s %s' % (option.value, ' '.join(option.values))
        return "'%s=%s:%s:%s'" % ('*' * option.is_list() + option.long, about, option.value, taken)
    if len(option.names()) == 2:
        return "'(- *)'{%s}'%s'" % (','.join(option.names()), about)
    return "'%s%s'" % (option.long, about)


def zsh_argument(place, argument):
    offered = '(%s)' % ' '.join(argument.values) if argument.values else '_files'
    many = argument.name.endswith(' ...')
    return "'%s:%s:%s'" % ('*' if many else place, argument.name.removesuffix(' ...'), offered)


def zsh(program):
    _, own, commands = whole(program)
    listed = '\n'.join('        ' + quoted('%s:%s' % (one.name, one.about)) for one in commands)
    cases = []
    for one in commands:
        if one.is_help():
            cases.append('                %s) _describe -t commands command commands ;;' % one.name)
            continue
        words = [zsh_option(option) for option in one.options]
        words += [zsh_argument(place + 1, argument) for place, argument in enumerate(one.arguments)]
        cases.append('                %s)\n                    _arguments \\\n                        %s\n                    ;;'
                     % (one.name, ' \\\n                        '.join(words)))
    return '''\
#compdef yamlfmt
# Completes the command line of yamlfmt in zsh. Made from `yamlfmt --help`.
_yamlfmt() {
    local curcontext=$curcontext state line
    typeset -A opt_args
    local -a commands=(
%s
    )
    _arguments -C \\
        %s \\
        '1:command:->command' \\
        '*::argument:->argument'
    case $state in
        command) _describe -t commands command commands ;;
        argument)
            case $words[1] in
%s
            esac
            ;;
    esac
}
_yamlfmt "$@"
''' % (listed, ' \\\n        '.join(zsh_option(option) for option in own), '\n'.join(cases))


def fish_option(when, option):
    words = ['complete -c yamlfmt', '-n ' + fish_quoted(when)]
    if option.short:
        words.append('-s ' + option.short[1:])
    words.append('-l ' + option.long[2:])
    if option.values and not option.is_list():
        words.append('-x -a ' + fish_quoted(' '.join(option.values)))
    elif option.values:
        words.append('-x -a ' + fish_quoted('(__fish_complete_list , "printf \'%%s\\n\' %s")' % ' '.join(option.values)))
    elif option.value:
        words.append('-r -F' if option.value == 'FILE' else '-x')
    return ' '.join([*words, '-d ' + fish_quoted(option.about)])


def fish_quoted(text):
    return "'%s'" % text.replace('\\', '\\\\').replace("'", "\\'")


def fish(program):
    _, own, commands = whole(program)
    lines = ['# Completes the command line of yamlfmt in fish. Made from `yamlfmt --help`.', 'complete -c yamlfmt -f']
    lines += [fish_option('__fish_use_subcommand', option) for option in own]
    for one in commands:
        lines.append('complete -c yamlfmt -n __fish_use_subcommand -a %s -d %s' % (one.name, fish_quoted(one.about)))
    for one in commands:
        when = '__fish_seen_subcommand_from ' + one.name
        lines += [fish_option(when, option) for option in one.options]
        if one.takes_files():
            lines.append('complete -c yamlfmt -n %s -F' % fish_quoted(when))
        elif one.names():
            lines.append('complete -c yamlfmt -n %s -a %s' % (fish_quoted(when), fish_quoted(' '.join(one.names()))))
        elif one.is_help():
            others = ' '.join(other.name for other in commands if other is not one)
            lines.append('complete -c yamlfmt -n %s -a %s' % (fish_quoted(when), fish_quoted(others)))
    return '\n'.join(lines) + '\n'


PAGES = {'yamlfmt.1': man, 'yamlfmt.bash': bash, '_yamlfmt': zsh, 'yamlfmt.fish': fish}


def main():
    if len(sys.argv) != 3:
        sys.exit(__doc__)
    program, folder = os.path.abspath(sys.argv[1]), sys.argv[2]
    for name, made in PAGES.items():
        with open(os.path.join(folder, name), 'w', encoding='utf-8', newline='\n') as page:
            page.write(made(program))


if __name__ == '__main__':
    main()
