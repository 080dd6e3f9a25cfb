#!/usr/bin/env python3
"""Runs each recipe of docs/RECIPES.md as it is written, in a scratch folder, if its tool is installed. Then it tests:

- old faults of the hooks (bench/faults.py), what they leave alone (bench/left.py), how they build (bench/builds.py),
  and the lines that differ from a commit (bench/changed.py);
- the examples of README.md and docs/STYLE.md;
- whether `--version` prints the newest version of CHANGELOG.md, and the logic of README.md, docs/PROVED.md and
  `rt version`;
- whether `patch` turns a hundred texts into their formatting by the output of `fmt --diff`, one by one and together;
- the extension for VS Code, in Node (bench/vscode_client.js).

It prints `tried`, `FAILED`, `no TOOL` or `not tried` for each, and returns 1 if one failed.

For VS Code, JetBrains, Helix, Zed, Kate, Sublime Text, GitHub and GitLab it runs only the commands and patterns (the
matchers by bench/lines.py, the workflows by bench/workflows.py, the editors by bench/editors.py): not the programs
themselves, how they read their settings, nor GitHub's actions and cache. It does not test the Dockerfile.

Usage: bench/recipes.py [PROGRAM]     (default: the program that ./yamlfmt builds; build it first)

It uses copies of the hooks that run PROGRAM, so nothing is built. They print a line on standard error, as a call that
builds does.

Not part of rt ci.
"""
import os
import random
import re
import shutil
import subprocess
import sys
import tempfile

import builds
import changed as changed_lines
import editors
import faults
import left
import lines
import workflows
from scratch import BAD, GOOD, NOISE, NoTool, TOP, read, recipes, repository, script, sh, with_hooks, write


def folder(room, text, clone):
    repository(room)
    done = sh(['sh', '-c', text], room)
    return done.returncode == 0 and read(room + '/a b.yaml') == GOOD


def git(room, text, clone):
    repository(room)
    sh(['sh', '-c', text], room)
    refused = sh(['git', 'commit', '-qm', 'bad'], room)
    sh([clone + '/hooks/each_file', 'fmt', '--write', 'a b.yaml'], room)
    still = sh(['git', 'commit', '-qm', 'not staged'], room)
    sh(['git', 'add', 'a b.yaml'], room)
    taken = sh(['git', 'commit', '-qm', 'good'], room)
    return refused.returncode and 'a b.yaml' in refused.stdout and still.returncode and not taken.returncode


def with_tool(room, text, clone):
    """A repository with the configuration, and a repository with only the hooks, which pre-commit clones."""
    tool = room + '/tool'
    shutil.copytree(clone, tool)
    shutil.copy(TOP + '/.pre-commit-hooks.yaml', tool)
    for line in ('git init -q .', 'git config user.email a@example.com', 'git config user.name a', 'git add -f .', 'git commit -qm tool'):
        sh(line.split(), tool)
    commit = sh(['git', 'rev-parse', 'HEAD'], tool).stdout.strip()
    repository(room)
    write(room + '/.pre-commit-config.yaml', text.replace('https://example.com/team/yamlfmt', tool).replace('COMMIT', commit))


def pre_commit(room, text, clone):
    with_tool(room, text, clone)
    write(room + '/yamlfmt.toml', 'quotes = "single"\n')
    write(room + '/template.yaml', 'a: {{ x }}\n')
    os.symlink('a b.yaml', room + '/link.yaml')
    done = sh(['pre-commit', 'run', '--files', 'a b.yaml', 'c.txt', 'template.yaml', 'link.yaml'], room)
    stays = read(room + '/template.yaml') == 'a: {{ x }}\n' and os.path.islink(room + '/link.yaml')
    good = stays and done.returncode == 1 and read(room + '/a b.yaml') == GOOD.replace('"', "'")
    return good and pre_commit_left(room + '/left', text.replace('[--config, yamlfmt.toml]', '[]'), clone)


def git_changed(room, text, clone):
    """Refuses a changed line, and takes a commit with formatted changed lines; also without a folder for hooks."""
    repository(room)
    sh(['rm', '-rf', '.git/hooks'], room)
    return changed_lines.changed_by_git(room, text)


def pre_commit_left(room, text, clone):
    """A template and plain text fail the hook, and an encrypted file passes; all stay."""
    with_tool(room, text, clone)
    texts = {'template.yaml': 'a: {{ x }}\n', 'inventory.yaml': left.INVENTORY, 'vault.yaml': left.VAULT}
    for name, said in texts.items():
        write(room + '/' + name, said)
    done = [sh(['pre-commit', 'run', '--files', name], room) for name in texts]
    stays = all(read(room + '/' + name) == said for name, said in texts.items())
    return stays and [one.returncode for one in done] == [1, 1, 0] and 'left alone: template' in done[0].stdout


def pre_commit_templates(room, text, clone):
    with_tool(room, text, clone)
    names = ['charts/one/templates/a.yaml', 'charts/one/values.yaml']
    for name in names:
        write(room + '/' + name, BAD)
    sh(['pre-commit', 'run', '--files', *names], room)
    return [read(room + '/' + name) for name in names] == [BAD, GOOD]


def pre_commit_package(room, text, clone):
    repository(room)
    write(room + '/.pre-commit-config.yaml', text)
    done = sh(['pre-commit', 'run', '--files', 'a b.yaml', 'c.txt'], room)
    return done.returncode == 1 and read(room + '/a b.yaml') == GOOD and read(room + '/c.txt') == 'text\n'


LONG = '---\nurl: https://example.com/%s\n' % ('a' * 100)


def long_lines(room, text, clone):
    """Reports all rules except one, and all rules without the option."""
    repository(room)
    write(room + '/long.yaml', LONG)
    sh(['git', 'add', '.'], room)
    said = [sh(['sh', '-c', words], room) for words in (text, text.replace('--without line-length', ''))]
    return 'line-length' not in said[0].stdout and 'comment-space' in said[0].stdout and 'long.yaml:2:101 line-length' in said[1].stdout


def pre_commit_long_lines(room, text, clone):
    with_tool(room, text, clone)
    write(room + '/long.yaml', LONG)
    done = [sh(['pre-commit', 'run', '--files', name], room) for name in ('long.yaml', 'a b.yaml')]
    return [one.returncode for one in done] == [0, 1]


def changed(room, text, clone):
    """Names the files that the branch changed, from the top and from a folder; fails if that can't be found out."""
    repository(room)
    for name, before in (('old.yaml', BAD), ('gone.yaml', 'other: text\n'), ('deep/old.yaml', BAD)):
        write(room + '/' + name, before)
    for line in ('git add .', 'git commit -qm main', 'git update-ref refs/remotes/origin/main HEAD', 'git rm -q gone.yaml'):
        sh(line.split(), room)
    write(room + '/a b.yaml', BAD + 'b: 1\n')
    write(room + '/deep/new.yaml', BAD)
    sh(['git', 'add', '.'], room)
    sh(['git', 'commit', '-qm', 'branch'], room)
    said = [sh(['sh', '-c', text], room + at, stderr=subprocess.DEVNULL) for at in ('', '/deep')]
    sh(['git', 'update-ref', '-d', 'refs/remotes/origin/main'], room)
    lost = sh(['sh', '-c', text], room)
    found = ':2:8 comment-space (fixable)\n'
    return ([done.stdout for done in said] == ['a b.yaml' + found + 'deep/new.yaml' + found, 'new.yaml' + found]
            and said[0].returncode and lost.returncode and 'comment-space' not in lost.stdout)


def make(room, text, clone):
    """Reports, formats, and then reports nothing; fails if Git fails."""
    repository(room)
    write(room + '/Makefile', text)
    before, done, after = (sh(['make', goal], room) for goal in ('yaml-check', 'yaml', 'yaml-check'))
    sh(['rm', '-rf', '.git'], room)
    lost = sh(['make', 'yaml-check'], room, env={'GIT_CEILING_DIRECTORIES': os.path.dirname(room)})
    return (before.returncode and '+a: "x"  # c' in before.stdout and not done.returncode and not after.returncode
            and read(room + '/a b.yaml') == GOOD and lost.returncode)


TOOLS = {'folder': ('git', folder), 'changed': ('git', changed),
         'changed-lines': ('git', changed_lines.changed_lines), 'baseline': ('git', changed_lines.only_new_findings),
         'make': ('make', make), 'git': ('git', git),
         'git-changed': ('git', git_changed),
         'pre-commit': ('pre-commit', pre_commit), 'pre-commit-package': ('pre-commit', pre_commit_package),
         'pre-commit-templates': ('pre-commit', pre_commit_templates), 'long-lines': ('git', long_lines),
         'pre-commit-long-lines': ('pre-commit', pre_commit_long_lines), 'vim': ('vim', editors.vim), 'neovim': ('nvim', editors.neovim),
         'neovim-server': ('nvim', editors.neovim_server), 'neovim-enable': ('nvim', editors.neovim_enable),
         'neovim-server-save': ('nvim', editors.neovim_server_save), 'emacs-server': ('emacs', editors.emacs_server),
         **{name + '-server': ('git', editors.server_settings) for name in ('helix', 'zed', 'kate', 'sublime')},
         'neovim-save': ('nvim', editors.neovim_save), 'emacs': ('emacs', editors.emacs), 'emacs-save': ('emacs', editors.emacs_save),
         'vscode': ('git', editors.vscode), 'jetbrains': ('git', editors.jetbrains), 'workflow-build': ('git', workflows.build),
         'workflow': ('git', workflows.check), 'matcher': ('git', lines.matcher), 'gitlab': ('git', workflows.gitlab),
         'gitlab-changed': ('git', workflows.gitlab_changed)}
UNTRIED = ('dockerfile', 'dockerfile-copy')
TRIED_BY_FAULTS = ('folder-templates',)


def style_examples():
    """The rows of docs/STYLE.md that contain only texts, or texts and "as it is".

    Each is a text, its formatting, and the setting that the head of the table names. In a cell, `⏎` is a line break.
    """
    setting = ''
    for line in read(TOP + '/docs/STYLE.md').splitlines():
        head = re.match(r'\| Read \| Written(?: under `([^`]*)`)? \|', line)
        if head:
            setting = head.group(1) or ''
        row = re.match(r'\| (`.*?) \| (`.*?|as it is) \|', line)
        if not row or re.sub(r'`[^`]*`|; ', '', row[1]) or not re.fullmatch(r'`[^`]*`|as it is', row[2]):
            continue
        cells = [re.findall(r'`` (.*?) ``|`(.*?)`', part) for part in (row[1], row[2])]
        texts, wanted = [[(a or b).replace('\\|', '|').replace('⏎', '\n') + '\n' for a, b in found] for found in cells]
        for text in texts:
            yield text, wanted[0] if wanted else text, setting


def style_rows(program):
    """Whether the program formats each example as docs/STYLE.md says."""
    for text, wanted, setting in style_examples():
        with tempfile.NamedTemporaryFile('w', suffix='.toml') as config:
            config.write(setting + '\n')
            config.flush()
            said = subprocess.run([program, 'fmt', '--config', config.name], input=text, stdout=subprocess.PIPE, text=True).stdout
        if said not in (wanted, '---\n' + wanted):
            print('  %r gives %r, and not %r' % (text, said, wanted))
            yield False
        yield True


def readme(program):
    page = read(TOP + '/README.md')
    block = re.search(r'makes of it:\n\n((?:    .*\n|\n)+)', page)[1]
    lines = [line[4:] for line in block.rstrip('\n').split('\n')]
    width = 48
    before = '\n'.join(line[:width].rstrip() for line in lines).rstrip('\n') + '\n'
    after = '\n'.join(line[width:].rstrip() for line in lines).rstrip('\n') + '\n'
    said = subprocess.run([program, 'fmt'], input=before, stdout=subprocess.PIPE, text=True).stdout
    return said == after


def logics():
    """The hash of the logic in two documents, and in the kit if there is one."""
    for page in ('README.md', 'docs/PROVED.md'):
        yield re.search('hash `([0-9a-f]+)`', read(TOP + '/' + page))[1]
    if shutil.which('rt'):
        yield sh(['rt', 'version'], TOP).stdout.split()[-1]


def version(program):
    newest = re.search(r'^## (\S+)', read(TOP + '/CHANGELOG.md'), re.M)[1]
    wanted = [re.compile(r'yamlfmt %s\n(built from a checkout|commit [0-9a-f]{40,})\nlogic %s\nplatform x86_64-linux-gnu, glibc [0-9.]+ or newer\n' % (re.escape(newest), logic)) for logic in logics()]
    return all(line.fullmatch(sh([program, word], TOP).stdout) for line in wanted for word in ('--version', '-V'))


LINES = ('k%d:  v', 'k%d: v', "k%d: 'v'", 'k%d: v  # %d', 'k%d: [1,2]', 'k%d: "v" # c', 'k%d:\n    a: \u00e4\n    b: 2', 'k%d:\n- a\n- b', '# %d', '')


def texts():
    """A hundred texts with line breaks of each kind or none at the end, some of them in the house style."""
    for seed in range(100):
        dice = random.Random(seed)
        few = dice.sample(LINES, dice.randint(1, len(LINES)))
        lines = [line.replace('%d', str(at)) for at in range(dice.randint(1, 40)) for line in (dice.choice(few),)]
        text = '---\n' * dice.randrange(2) + '\n'.join(lines) + '\n' * dice.randrange(2)
        yield text.replace('\n', '\r\n' if seed % 3 == 1 else '\n')


def patched(program):
    """Whether `patch` formats each text by the output of `fmt --diff`, which is empty if nothing changes."""
    if not shutil.which('patch'):
        print('no patch')
        return True
    with tempfile.TemporaryDirectory() as room:
        for text in texts():
            write(room + '/a b.yaml', text)
            wanted = sh([program, 'fmt', 'a b.yaml'], room).stdout
            shown = sh([program, 'fmt', '--diff', 'a b.yaml'], room, text=False)
            if shown.stdout:
                sh(['patch', '-s', 'a b.yaml'], room, text=False, input=shown.stdout)
            if read(room + '/a b.yaml') != wanted or shown.returncode != (text != wanted) or bool(shown.stdout) != (text != wanted):
                print('  %r' % text)
                return False
    return patched_together(program)


def patched_together(program):
    """Whether `patch` formats all texts by one output, which also has the line of a template."""
    with tempfile.TemporaryDirectory() as room:
        wanted = {}
        for at, text in enumerate(texts()):
            name = '%d.yaml' % at
            write(room + '/' + name, text)
            wanted[name] = sh([program, 'fmt', name], room).stdout
        write(room + '/a b.yaml', 'a: {{ x }}\n')
        shown = sh([program, 'fmt', '--diff', '0.yaml', 'a b.yaml', *list(wanted)[1:]], room, text=False)
        sh(['patch', '-s', '-p0'], room, text=False, input=shown.stdout)
        good = shown.returncode == 1 and shown.stdout.count(b'a b.yaml:1:4 template\n') == 1
        return good and all(read(room + '/' + name) == text for name, text in wanted.items())


def extension(program):
    """Whether the extension for VS Code works with a stand-in for VS Code's API."""
    if not shutil.which('node'):
        print('no node')
        return True
    done = sh(['node', TOP + '/bench/vscode_client.js', program], TOP, timeout=120)
    if done.returncode:
        print('  ' + done.stdout)
    return not done.returncode


def is_in_style(text, program):
    """Whether a recipe that is YAML is in the house style, so that it passes the check that it sets up."""
    if not text.startswith('---'):
        return True
    said = [subprocess.run([program, verb], input=text, stdout=subprocess.PIPE, text=True).stdout for verb in ('check', 'fmt')]
    return said == ['', text]


def is_good(name, text, clone, program):
    """Tests a recipe if its tool is installed, and prints the result."""
    if name in TRIED_BY_FAULTS:
        return True
    if name in UNTRIED:
        print('%s: not tried' % name)
        return True
    tool, tried = TOOLS[name]
    if not shutil.which(tool):
        print('%s: no %s' % (name, tool))
        return True
    with tempfile.TemporaryDirectory() as room:
        script(room + '/bin/yamlfmt', "echo '%s' >&2\nexec '%s' \"$@\"\n" % (NOISE, program))
        try:
            good = tried(room, text, clone) and is_in_style(text, program)
        except NoTool as tool:
            print('%s: no %s' % (name, tool))
            return True
        except Exception as fault:
            print('  %r' % fault)
            good = False
    print('%s: %s' % (name, 'tried' if good else 'FAILED'), flush=True)
    return good


def is_gone(tried, clone):
    """Tests an old fault, and prints the result."""
    with tempfile.TemporaryDirectory() as room:
        os.makedirs(room + '/bin')
        try:
            good = tried(room, clone, recipes(clone))
        except OSError:
            good = False
    print('%s: %s' % (tried.__name__, 'tried' if good else 'FAILED'), flush=True)
    return good


def main():
    program = os.path.abspath(sys.argv[1]) if len(sys.argv) > 1 else TOP + '/.build/yamlfmt'
    if not os.access(program, os.X_OK):
        sys.exit('%s is not there: ./yamlfmt --help builds it' % program)
    failed = 0
    with tempfile.TemporaryDirectory() as clone:
        with_hooks(clone, program)
        failed += sum(not is_good(name, text, clone, program) for name, text in recipes(clone).items())
        tests = [*faults.EACH, *left.EACH, *builds.EACH, *changed_lines.EACH]
        failed += sum(not is_gone(tried, clone) for tried in tests)
    good = all([*style_rows(program)])
    print('docs/STYLE.md: %s' % ('tried' if good else 'FAILED'))
    failed += not good
    for page, tried in (('README.md', readme), ('CHANGELOG.md', version), ('fmt --diff', patched), ('editors/vscode', extension)):
        good = tried(program)
        print('%s: %s' % (page, 'tried' if good else 'FAILED'))
        failed += not good
    return 1 if failed else 0


if __name__ == '__main__':
    sys.exit(main())
