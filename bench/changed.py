"""The lines that differ from a commit: `each_file --changed` and the hooks. bench/recipes.py runs this.

Each text has two lines that fmt would change, and only one of them is changed in the work tree.
"""
from faults import each_file
from scratch import BAD, read, repository, script, sh, write

OLD = '---\na:  1\nb: 2\nc: 3\nd:  4\n'
NEW = '---\na:  1\nb: 2\nc: 3\nd:  5\n'
FORMATTED = '---\na:  1\nb: 2\nc: 3\nd: 5\n'


def edited(room, name='e f.yaml'):
    """A repository with a committed file of which one line is changed."""
    repository(room)
    write(room + '/' + name, OLD)
    sh(['git', 'add', '.'], room)
    sh(['git', 'commit', '-qm', 'old', '--no-verify'], room)
    write(room + '/' + name, NEW)


def changed_lines(room, text, clone):
    """The recipe formats the changed line and nothing else."""
    edited(room)
    done = sh(['sh', '-c', text], room)
    return done.returncode == 0 and read(room + '/e f.yaml') == FORMATTED


def only_new_findings(room, text, clone):
    """The recipe writes a baseline and finds nothing. Then it reports only the new finding, also of what is staged. The
    baseline may be a pipe, and only check takes one."""
    repository(room)
    sh(['git', 'mv', 'a b.yaml', 'a.yaml'], room)
    script(room + '/bin/yamlfmt', 'exec "$(%s/hooks/program 2> /dev/null)" "$@"\n' % clone)
    first, second = text.splitlines()
    sh(['sh', '-c', first], room)
    none = sh(['sh', '-c', second], room)
    write(room + '/a.yaml', BAD.replace('---\n', '---\nb: 1 # d\n'))
    new = sh(['sh', '-c', second], room)
    sh(['git', 'add', 'a.yaml'], room)
    write(room + '/a.yaml', BAD)
    staged = each_file(clone, room, 'check', '--staged', '--baseline=baseline.json', 'a.yaml')
    pipe = sh(['bash', '-c', '%s/hooks/each_file check --baseline <(cat baseline.json) a.yaml' % clone], room)
    wrong = each_file(clone, room, 'fmt', '--check', '--baseline', 'baseline.json', 'a.yaml')
    return ([done.returncode for done in (none, new, staged, pipe, wrong)] == [0, 1, 1, 0, 3]
            and all('a.yaml:2:6 comment-space' in done.stdout and ':3:' not in done.stdout for done in (new, staged)))


def only_changed_lines(room, clone, recipes):
    """check, fmt --check and fmt --diff look only at the changed line, also of what is staged."""
    edited(room)
    sh(['git', 'add', 'e f.yaml'], room)
    write(room + '/e f.yaml', OLD)
    staged = each_file(clone, room, 'fmt', '--diff', '--staged', '--changed', 'e f.yaml')
    unchanged = each_file(clone, room, 'fmt', '--check', '--changed', 'e f.yaml')
    write(room + '/e f.yaml', NEW)
    first = each_file(clone, room, 'fmt', '--check', '--changed=HEAD', 'e f.yaml')
    return (staged.returncode == 1 and '-d:  5' in staged.stdout and '-a:  1' not in staged.stdout
            and not unchanged.returncode and first.returncode == 1 and ':5:' in first.stdout)


def new_files_are_whole(room, clone, recipes):
    """A file that the commit doesn't have is formatted whole; one that lost a line is left as it is."""
    edited(room, 'g.yaml')
    write(room + '/new.yaml', NEW)
    write(room + '/g.yaml', OLD.replace('b: 2\n', ''))
    done = each_file(clone, room, 'fmt', '--write', '--changed', 'new.yaml', 'g.yaml')
    return (done.returncode == 0 and read(room + '/new.yaml') == '---\na: 1\nb: 2\nc: 3\nd: 5\n'
            and read(room + '/g.yaml') == OLD.replace('b: 2\n', ''))


def many_lines(room, clone, recipes):
    """Every fourth line of a long file: more than the system takes as one argument. Lines in the style are between."""
    repository(room)

    def text(*cycle):
        return '---\n' + ''.join('- a%d:%s\n' % (at, cycle[at % 4]) for at in range(80000))

    write(room + '/h.yaml', text('  1', ' 1', '  1', ' 1'))
    sh(['git', 'add', '.'], room)
    sh(['git', 'commit', '-qm', 'old', '--no-verify'], room)
    write(room + '/h.yaml', text('  2', ' 1', '  1', ' 1'))
    done = each_file(clone, room, 'fmt', '--write', '--changed', 'h.yaml')
    return done.returncode == 0 and read(room + '/h.yaml') == text(' 2', ' 1', '  1', ' 1')


def changed_by_git(room, recipe):
    """The Git hook with --changed refuses a changed line, and takes a commit with formatted changed lines."""
    edited(room)
    sh(['sh', '-c', recipe], room)
    sh(['git', 'add', '.'], room)
    refused = sh(['git', 'commit', '-qm', 'bad'], room)
    write(room + '/e f.yaml', FORMATTED)
    sh(['git', 'add', '.'], room)
    taken = sh(['git', 'commit', '-qm', 'good'], room)
    return refused.returncode and '-d:  5' in refused.stdout and not taken.returncode


EACH = (only_changed_lines, new_files_are_whole, many_lines)
