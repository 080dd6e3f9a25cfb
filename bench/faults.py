"""Old faults of the hooks: files that were destroyed or skipped, and needless builds. bench/recipes.py runs this."""
import os
import re
import resource
import shutil
import signal
import subprocess
import time

from scratch import BAD, GOOD, NOISE, TOP, VERBS, environment, read, repository, script, sh, with_hooks, write

def each_file(clone, room, *words, **more):
    return sh([clone + '/hooks/each_file', *words], room, **more)


def commit(room, *names, env=None):
    """Stages the files, or those that options name, and commits."""
    sh(['git', 'add', *names], room)
    return sh(['git', 'commit', '-qm', 'message'], room, env=env)


def hooked(room, clone, recipe):
    """A repository with the Git hook and one commit."""
    repository(room)
    commit(room)
    return sh(['sh', '-c', recipe], room)


def links_stay(room, clone, recipes):
    repository(room)
    os.symlink('b.yaml', room + '/a.yaml')
    os.symlink('b.yaml', room + '/c.yaml')
    write(room + '/b.yaml', BAD)
    sh(['git', 'add', '.'], room)
    done = sh(['sh', '-c', recipes['folder']], room)
    staged = each_file(clone, room, 'check', '--staged', 'a.yaml')
    stay = staged.returncode == 0 and os.path.islink(room + '/a.yaml') and os.path.islink(room + '/c.yaml') and read(room + '/b.yaml') == GOOD
    return stay and done.returncode == 0 and done.stdout.count('symbolic links are left alone: a.yaml and 1 more') == 1


def names_like_stages(room, clone, recipes):
    """`:0:x.yaml` names the staged version of x.yaml."""
    hooked(room, clone, recipes['git'])
    write(room + '/x.yaml', GOOD)
    write(room + '/0:x.yaml', BAD)
    done = commit(room, 'x.yaml', '0:x.yaml')
    return done.returncode != 0 and '+++ 0:x.yaml\n' in done.stdout


def hook_by_relative_path(room, clone, recipes):
    """The recipe with a relative path of the clone, also in a linked worktree."""
    hooked(room, clone, recipes['git'].replace(clone, os.path.relpath(clone, room)))
    write(room + '/a b.yaml', BAD + 'b: 1 # c\n')
    sh(['git', 'worktree', 'add', '-q', room + '/linked'], room)
    write(room + '/linked/b.yaml', BAD)
    return commit(room, 'a b.yaml').returncode and commit(room + '/linked', 'b.yaml').returncode


def hook_in_worktree(room, clone, recipes):
    """The recipe, followed in a linked worktree of a repository without a folder for hooks."""
    repository(room)
    commit(room)
    sh(['rm', '-rf', '.git/hooks'], room)
    sh(['git', 'worktree', 'add', '-q', room + '/linked'], room)
    sh(['sh', '-c', recipes['git']], room + '/linked')
    write(room + '/linked/b.yaml', BAD)
    return commit(room + '/linked', 'b.yaml').returncode


def hook_without_git(room, clone, recipes):
    """If Git does not list what is staged, nothing passes."""
    repository(room)
    done = sh([clone + '/hooks/pre-commit'], room, env={'GIT_TEST_ASSUME_DIFFERENT_OWNER': '1'})
    literal = sh([clone + '/hooks/pre-commit'], room, env={'GIT_LITERAL_PATHSPECS': '1'})
    return done.returncode == 3 and literal.returncode == 1


def settings_of_another_owner(room, clone, recipes):
    repository(room)
    write(room + '/.yamlfmt.toml', 'quotes = "single"\n')
    done = each_file(clone, room, 'fmt', '--diff', 'a b.yaml', env={'GIT_TEST_ASSUME_DIFFERENT_OWNER': '1'})
    return done.returncode == 1 and "+a: 'x'" in done.stdout


def settings_by_pipe(room, clone, recipes):
    write(room + '/a.yaml', BAD)
    write(room + '/b.yaml', BAD)
    line = "'%s' fmt --diff --config <(echo 'quotes = \"single\"') a.yaml b.yaml" % (clone + '/hooks/each_file')
    return sh(['bash', '-c', line], room).stdout.count("+a: 'x'") == 2


def settings_from_elsewhere(room, clone, recipes):
    """They are those of each file's work tree, or of its folder if it has no work tree."""
    for name in ('one', 'two'):
        write(room + '/%s/deep/a.yaml' % name, BAD)
    repository(room + '/one')
    write(room + '/one/.yamlfmt.toml', 'quotes = "single"\n')
    write(room + '/export/.yamlfmt.toml', 'quotes = "single"\n')
    write(room + '/export/deep/a.yaml', BAD)
    words = [room + '/%s/deep/a.yaml' % name for name in ('one', 'two', 'export')]
    at_root, inside = (sh([clone + '/hooks/each_file', 'fmt', '--diff', '--', *words], at) for at in ('/', room + '/one/deep'))
    return [re.findall(r'^\+a: (.)', done.stdout, re.M) for done in (at_root, inside)] == [['"'] * 3, ["'"] * 3]


def settings_not_found_out(room, clone, recipes):
    repository(room)
    os.symlink('nothing', room + '/.yamlfmt.toml')
    dangling = each_file(clone, room, 'check', 'a b.yaml')
    empty = each_file(clone, room, 'check', '--config=', 'a b.yaml')
    missing = each_file(clone, room, 'check', '--config', 'none.toml', 'a b.yaml')
    says = '.yamlfmt.toml: read failed' in dangling.stdout and 'none.toml' in missing.stdout
    return says and [done.returncode for done in (dangling, empty, missing)] == [3, 3, 3]


def without_room():
    """No file can grow, as on a full disk."""
    signal.signal(signal.SIGXFSZ, signal.SIG_IGN)
    resource.setrlimit(resource.RLIMIT_FSIZE, (0, 0))


def full_folder(room, clone, recipes):
    write(room + '/a.yaml', BAD)
    checked = each_file(clone, room, 'check', 'a.yaml', preexec_fn=without_room)
    shown = each_file(clone, room, 'fmt', '--diff', 'a.yaml', preexec_fn=without_room)
    told = checked.returncode == 1 and 'a.yaml:2:8 comment-space (fixable)\n' in checked.stdout
    return told and shown.returncode == 1 and '+++ a.yaml\n' in shown.stdout and '+a: "x"  # c\n' in shown.stdout


def names_of_bytes(room, clone, recipes):
    """Names that are not UTF-8."""
    bad, good = b'\xe9.yaml', b'\xe8.yaml'
    for name, text in ((bad, BAD), (good, GOOD)):
        with open(os.fsencode(room) + b'/' + name, 'w', encoding='utf-8') as file:
            file.write(text)
    said = [each_file(clone, room, *words, '--', bad, good, text=False) for words in (['check'], ['fmt', '--diff'], ['fmt', '--write'], ['fmt', '--check'])]
    wanted = (b'?.yaml:2:8 comment-space (fixable)\n', b'+++ ?.yaml\n',
              b'?.yaml: not rewritten: its name is not UTF-8\n', b'?.yaml:2:8 not formatted\n')
    good = [done.returncode for done in said] == [1, 1, 3, 1] and not any(b'This repairs' in done.stdout for done in said)
    return good and all(done.stdout.count(line) == 1 for done, line in zip(said, wanted))


def help_is_there(room, clone, recipes):
    done = each_file(clone, room, '--help')
    wanted = ('--config', '--staged', '--stdin', '--any-text', 'Status')
    return done.returncode == 0 and all(word in done.stdout for word in wanted)


def findings_come_once(room, clone, recipes):
    """On standard output; the reason of a refusal follows its line, on standard error."""
    write(room + '/a.yaml', 'a: "x" # c\n')
    write(room + '/b.yaml', 'a: b: c\n')
    apart = each_file(clone, room, 'check', 'a.yaml', 'b.yaml', stderr=subprocess.PIPE)
    lines = ['a.yaml:1:1 document-start (fixable)', 'a.yaml:1:8 comment-space (fixable)', 'b.yaml:1:5 refused: syntax']
    more = [line for line in apart.stderr.splitlines() if line.startswith(('a.yaml', 'b.yaml'))]
    good = apart.stdout.splitlines() == lines and more and all(line.startswith('b.yaml:  ') for line in more)
    for words in VERBS:
        together = each_file(clone, room, *words, 'b.yaml').stdout.splitlines()
        at = together.index(lines[2])
        good = good and together[at + 1].startswith('b.yaml:  ') and together.count(lines[2]) == 1
    return good


def findings_are_explained_on_a_terminal(room, clone, recipes):
    """Each explanation follows the line of its finding."""
    write(room + '/a.yaml', 'a: "x" # c\n')
    shown = sh(['script', '-qec', "'%s/hooks/each_file' check a.yaml" % clone, '/dev/null'], room).stdout
    lines = [line for line in shown.splitlines() if line.startswith('a.yaml')]
    return (lines[::2] == ['a.yaml:1:1 document-start (fixable)', 'a.yaml:1:8 comment-space (fixable)'] and len(lines) == 4
            and all(line.startswith('a.yaml:   fmt writes ') for line in lines[1::2]))


def excludes_hold(room, clone, recipes):
    """Also for what is staged, and for a template. A pipe is not left out."""
    hooked(room, clone, recipes['git'])
    write(room + '/.yamlfmt.toml', 'exclude = ["/charts/", "a b.yaml"]\n')
    write(room + '/charts/x.yaml', BAD)
    write(room + '/charts/t.yaml', 'a: {{ x }}\n')
    names = ['charts/x.yaml', 'charts/t.yaml', 'a b.yaml']
    done = [each_file(clone, room, *words, '--', *names) for words in VERBS]
    staged = commit(room, *names)
    below = each_file(clone, room + '/charts', 'check', 'x.yaml')
    pipe = sh(['bash', '-c', "'%s' check <(printf 'a: 1 # c\\n')" % (clone + '/hooks/each_file')], room)
    return ([(one.returncode, one.stdout.replace(NOISE + '\n', '')) for one in done] == [(0, '')] * 4 and staged.returncode == 0
            and below.returncode == 0 and pipe.returncode == 1 and read(room + '/charts/x.yaml') == BAD)


def names_come_by_pipe(room, clone, recipes):
    """No name is status 0, and the status of the files is not changed."""
    write(room + '/a.yaml', 'a: b: c\n')
    write(room + '/-x.yaml', BAD)
    given = [each_file(clone, room, 'check', '--files0', input=names).returncode for names in ('', 'a.yaml\0', '-x.yaml\0', '-x.yaml\0a.yaml')]
    return given == [0, 2, 1, 2]


def repairs_are_named(room, clone, recipes):
    """The last line is a command that repairs the files with findings, and it works."""
    for name in ('a b.yaml', 'c.yaml'):
        write(room + '/' + name, BAD)
    write(room + '/good.yaml', GOOD)
    for words in VERBS[:3]:
        said = each_file(clone, room, *words, 'a b.yaml', 'good.yaml', 'c.yaml').stdout.splitlines()[-1]
        if not said.startswith('This repairs them: ') or 'good.yaml' in said:
            return False
    done = sh(['bash', '-c', said.split(': ', 1)[1]], room)
    return done.returncode == 0 and read(room + '/a b.yaml') == read(room + '/c.yaml') == GOOD


def diffs_of_odd_names(room, clone, recipes):
    """Names that look like the lines of a diff, or that diffs quote. The last line repairs only what can be repaired."""
    bad = ['--- z.yaml', 'it\'s\n".yaml']
    texts = {'--- t.yaml': 'a: {{ x }}\n', '+++ t.yaml': 'a: {{ x }}\n', **dict.fromkeys(bad, BAD)}
    for name, text in texts.items():
        write(room + '/' + name, text)
    said = each_file(clone, room, 'fmt', '--diff', '--', *texts).stdout.splitlines()
    wanted = ['--- t.yaml:1:4 template', '+++ t.yaml:1:4 template', '--- --- z.yaml\t', '+++ --- z.yaml\t',
              '--- "it\'s\\n\\".yaml"', '+++ "it\'s\\n\\".yaml"']
    done = sh(['bash', '-c', said[-1].split(': ', 1)[1]], room)
    return ([line for line in said if line.startswith(('---', '+++'))] == wanted and done.returncode == 0
            and [read(room + '/' + name) for name in bad] == [GOOD] * 2)


def calls_are_few(room, clone, recipes):
    """One call of the program for all files."""
    program = sh([clone + '/hooks/program'], room, stderr=subprocess.DEVNULL).stdout.strip()
    script(room + '/counted', "echo call >> '%s/count'\nexec '%s' \"$@\"\n" % (room, program))
    with_hooks(room + '/own', room + '/counted')
    names = ['%d.yaml' % at for at in range(20)]
    for name in names:
        write(room + '/' + name, '# c\n---\nkey: |\n  text\nother:\n  - 1\n')
    texts = {'text.yaml': 'a\n', 'braces.yaml': 'a: "{{ x }}"\n', 'template.yaml': 'a: {{ x }}\n',
             'refused.yaml': 'a: b: c\n'}
    for name, text in texts.items():
        write(room + '/' + name, text)
    counts = []
    for words in VERBS:
        write(room + '/count', '')
        each_file(room + '/own', room, *words, *texts, *names)
        counts.append(read(room + '/count').count('call'))
    return counts == [1, 1, 1, 1]


def one_buffer(room, clone, recipes):
    """Standard input instead of a file."""
    repository(room)
    write(room + '/.yamlfmt.toml', 'quotes = "single"\n')
    wanted = ((BAD, 0, GOOD.replace('"', "'"), ''), ('a: b: c\n', 2, '', 'new/x.yaml:1:5 refused: syntax\n'),
              ('a: {{ x }}\n', 1, 'a: {{ x }}\n', 'new/x.yaml: left alone: template\n'))
    good = True
    for text, status, output, line in wanted:
        done = each_file(clone, room, 'fmt', '--stdin', 'new/x.yaml', input=text, stderr=subprocess.PIPE)
        good = good and (done.returncode, done.stdout) == (status, output) and line in done.stderr
    return good


LOGIC = '0123456789abcdef'
SAYS_LOGIC = '[ "$1" != version ] || { echo "kit-1 logic ${LOGIC-%s}"; exit; }\n' % LOGIC
RT = SAYS_LOGIC + r"""[ "$1" != run ] || echo run >> "$COUNT"
echo 'so far: 1 of 2 functions checked'
sleep 1
[ -z "${FAILS-}" ] || { echo 'error: not proved'; exit 1; }
echo 'logic=proved functions=2 sum=0'
[ "$1" = run ] || exit 0
mkdir -p out
printf '#!/bin/sh\necho built "$@"\n' > out/yamlfmt
chmod +x out/yamlfmt
"""


class Builder:
    """A clone with two small crates, and an rt that counts its calls."""

    def __init__(self, room):
        self.room, self.top, self.count = room, room + '/clone', room + '/count'
        for name in ('hooks/program', 'hooks/build', 'yamlfmt'):
            write(self.top + '/' + name, read(TOP + '/' + name))
            os.chmod(self.top + '/' + name, 0o755)
        write(self.top + '/crates.txt', 'yf_one: std\nyf_two: yf_one\nyamlfmt: yf_one clap\n')
        for crate in ('yf_one', 'yf_two', 'yamlfmt'):
            for name in ('src/lib.rt', 'src/lib_tests.rt', 'specs/Lib.antt', 'proofs/Lib.antt'):
                write(self.top + '/crates/%s/%s' % (crate, name), crate + name)
        write(self.top + '/crates/yf_command_line/src/build.rt', 'pub const LOGIC: &str = "%s";\n' % LOGIC)
        write(self.top + '/crates/yamlfmt/stdin', 'a\n')
        script(room + '/bin/rt', RT)
        write(self.count, '')

    def run(self, *words, **more):
        env = dict({'COUNT': self.count}, **more.pop('env', {}))
        return sh(['bash', self.top + '/' + (words[0] if words else 'hooks/program'), *words[1:]], self.room, env=env, **more)

    def builds(self):
        return read(self.count).count('run')


def copy_hooks(clone):
    """Copies each_file and its parts."""
    for name in ('each_file', 'one_file.bash', 'staged_files.bash', 'lines.awk'):
        shutil.copy(TOP + '/hooks/' + name, clone + '/hooks/' + name)


def build_by_content(room, clone, recipes):
    """A new text of a source builds the program again; a new time, test or proof builds nothing."""
    builder = Builder(room)
    source = builder.top + '/crates/yf_one/src/lib.rt'
    told = [builder.run().returncode, builder.builds()]
    os.utime(source)
    builder.run()
    sh(['cp', '-r', builder.top, builder.top + '2'], room)
    builder.top += '2'
    builder.run()
    for name in ('yf_one/src/lib_tests.rt', 'yf_one/proofs/Lib.antt', 'yf_two/src/lib.rt'):
        write(builder.top + '/crates/' + name, 'changed')
        builder.run()
    told.append(builder.builds())
    write(builder.top + '/crates/yf_one/src/lib.rt', 'changed')
    os.utime(builder.top + '/crates/yf_one/src/lib.rt', (0, 0))
    builder.run()
    return told == [0, 1, 1] and builder.builds() == 2 and builder.run('yamlfmt', 'x').stdout == 'built x\n'


def build_restored_from_elsewhere(room, clone, recipes):
    """A program of other sources is not used, even if it is newer."""
    builder = Builder(room)
    builder.run()
    write(builder.top + '/crates/yf_one/src/lib.rt', 'changed')
    sh(['cp', '-r', '.build', room + '/kept'], builder.top)
    sh(['rm', '-rf', '.build'], builder.top)
    sh(['cp', '-r', room + '/kept', '.build'], builder.top)
    builder.run()
    stamps = [builder.run('hooks/program', '--stamp').stdout, read(builder.top + '/.build/yamlfmt.stamp').split('\n')[0] + '\n']
    return builder.builds() == 2 and stamps[0] == stamps[1]


def build_made_by_hand(room, clone, recipes):
    """A program that rt built without the hooks is used if it is newer than the sources, first or later."""
    builder = Builder(room)
    said = []
    for text in ('first', 'second'):
        write(builder.top + '/crates/yf_one/src/lib.rt', text)
        time.sleep(0.05)
        script(builder.top + '/crates/yamlfmt/out/yamlfmt', 'echo %s\n' % text)
        said.append(builder.run('yamlfmt').stdout)
    write(builder.top + '/crates/yf_one/src/lib.rt', 'changed')
    return said == ['first\n', 'second\n'] and builder.builds() == 0 and builder.run().returncode == 0 and builder.builds() == 1


def four_first_calls(room, clone, recipes):
    builder = Builder(room)
    env = dict(environment(room), COUNT=builder.count)
    calls = [subprocess.Popen(['bash', builder.top + '/yamlfmt'], env=env, cwd=room, text=True, start_new_session=True,
                              stdout=subprocess.PIPE, stderr=subprocess.PIPE) for _ in range(4)]
    ends = [call.communicate() for call in calls]
    waited = sum('another call builds the program' in said for _, said in ends)
    return [text for text, _ in ends] == ['built\n'] * 4 and builder.builds() == 1 and waited == 3


def failed_build(room, clone, recipes):
    builder = Builder(room)
    done = builder.run(env={'FAILS': '1'}, start_new_session=True)
    again = builder.run()
    says = 'error: not proved' in done.stdout and 'yf_one could not be proved' in done.stdout
    return done.returncode == 3 and says and again.returncode == 0 and builder.builds() == 1


def another_logic(room, clone, recipes):
    """With a kit that has another logic, or prints none, nothing is built."""
    builder = Builder(room)
    said = [builder.run(env={'LOGIC': logic}, start_new_session=True) for logic in ('fedcba9876543210', LOGIC + '0', '')]
    return all(done.returncode == 3 and 'the logic ' + LOGIC in done.stdout for done in said) and builder.builds() == 0


def build_is_told(room, clone, recipes):
    """On the terminal, although standard error is held back, as by pre-commit; without a terminal, on standard error."""
    builder = Builder(room)
    line = "COUNT='%s' '%s/yamlfmt' > said 2> held" % (builder.count, builder.top)
    shown = sh(['script', '-qec', "bash -c \"%s\"" % line, '/dev/null'], room).stdout
    sh(['rm', '-rf', '.build', 'crates/yamlfmt/out'], builder.top)
    piped = builder.run(start_new_session=True, stdout=subprocess.DEVNULL, stderr=subprocess.PIPE).stderr
    lines = ('building the program', '1 of 2 crates are proved; now yamlfmt', 'the program is built')
    return read(room + '/said') == 'built\n' and all(line in shown and line in piped for line in lines)


def build_is_told_under_pre_commit(room, clone, recipes):
    """On the terminal, although pre-commit shows nothing of a hook that passes."""
    if not shutil.which('pre-commit'):
        return True
    builder = Builder(room)
    copy_hooks(builder.top)
    shutil.copy(TOP + '/.pre-commit-hooks.yaml', builder.top)
    for line in ('git init -q .', 'git config user.email a@example.com', 'git config user.name a', 'git add -f .', 'git commit -qm tool'):
        sh(line.split(), builder.top)
    repository(room)
    rev = sh(['git', 'rev-parse', 'HEAD'], builder.top).stdout.strip()
    write(room + '/.pre-commit-config.yaml', 'repos:\n  - repo: %s\n    rev: %s\n    hooks:\n      - id: yamlfmt\n' % (builder.top, rev))
    shown = sh(['script', '-qec', "COUNT='%s' pre-commit run --files 'a b.yaml'" % builder.count, '/dev/null'], room)
    return shown.returncode == 0 and '1 of 2 crates are proved' in shown.stdout


def program_elsewhere(room, clone, recipes):
    """YAMLFMT_PROGRAM is a path, a name in PATH, no program, or the script that calls hooks/program."""
    builder = Builder(room)
    script(room + '/there', 'echo there\n')
    script(room + '/bin/there', 'echo there\n')
    named = (room + '/there', './there', 'there', room + '/none', room + '/count', builder.top + '/yamlfmt')
    ends = [builder.run('yamlfmt', env={'YAMLFMT_PROGRAM': name}) for name in named]
    good = [done.stdout for done in ends[:3]] == ['there\n'] * 3 and [done.returncode for done in ends[3:]] == [3, 3, 3]
    return good and builder.builds() == 0


def buffer_builds_nothing(room, clone, recipes):
    builder = Builder(room)
    copy_hooks(builder.top)
    done = builder.run('hooks/each_file', 'fmt', '--stdin', 'a.yaml', input=BAD)
    return done.returncode == 3 and 'the program is not built' in done.stdout and builder.builds() == 0


EACH = [links_stay, names_like_stages, hook_by_relative_path, hook_in_worktree, hook_without_git, settings_of_another_owner,
        settings_by_pipe, settings_from_elsewhere, settings_not_found_out, excludes_hold, names_come_by_pipe, repairs_are_named, diffs_of_odd_names, full_folder, names_of_bytes, help_is_there, findings_come_once,
        findings_are_explained_on_a_terminal, calls_are_few, one_buffer, build_by_content, build_restored_from_elsewhere,
        build_made_by_hand, four_first_calls, failed_build, another_logic, build_is_told, build_is_told_under_pre_commit,
        program_elsewhere, buffer_builds_nothing]
