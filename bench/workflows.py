"""The recipes for GitHub and GitLab: runs the commands of each step as the runners do. bench/recipes.py runs this.

`tar` stands in for the cache of the GitHub recipe, and a small script for `rt`. GitHub and GitLab themselves are not
tested.
"""
import json
import os
import re

import lines
from editors import FOUND
from faults import SAYS_LOGIC, Builder, copy_hooks
from scratch import BAD, GOOD, read, recipes, repository, script, sh, write

# What GitHub runs for `run:`, and for `run:` with `shell: bash`; and what GitLab runs for all of `script:`.
RUN = ['bash', '-e', '-c']
RUN_BASH = ['bash', '--noprofile', '--norc', '-eo', 'pipefail', '-c']


class Clone:
    """A repository, and below it the clone of this one that a workflow makes, without a program."""

    def __init__(self, room, rt):
        self.room = room
        os.makedirs(room)
        repository(room)
        builder = Builder(room)
        copy_hooks(builder.top)
        os.rename(builder.top, room + '/.yamlfmt')
        script(room + '/bin/rt', rt)

    def run(self, words, text):
        return sh([*words, text], self.room, env={'GITHUB_OUTPUT': self.room + '/output'}, start_new_session=True)

    def key(self, text):
        """The key of the cache, by the step with the stamp."""
        write(self.room + '/output', '')
        self.run(RUN, step(text, 'id: program\n +run: '))
        stamp = re.fullmatch('stamp=([0-9a-f]{64})\n', read(self.room + '/output'))
        return step(text, 'key: ').replace('${{ steps.program.outputs.stamp }}', stamp[1])


def step(text, words):
    """The text after the words on their line."""
    return re.search(r'%s(.*)' % words, text)[1]


def block(text, words):
    """The lines of the block scalar after the words."""
    lines_of = re.search(r'^( *)(?:- )?%s\|\n((?:\1  +.*\n)+)' % words, text, re.M)[2]
    return [line.strip() for line in lines_of.splitlines()]


def built(room, text, clone):
    """Runs the workflow that builds, twice, and packs the cache. Returns the key, and whether all succeeded and one
    build happened.
    """
    made = Clone(room + '/made', SAYS_LOGIC + "[ \"$1\" = run ] || exit 0\necho run >> '%s/count'\nmkdir -p out\ncp \"$('%s/hooks/program' 2> /dev/null)\" out/yamlfmt\n" % (room, clone))
    key = made.key(text)
    done = made.run(RUN, step(text, '- run: '))
    made.run(RUN, step(text, '- run: '))
    packed = made.run(RUN, "tar -czf '%s/cache' %s" % (room, ' '.join(block(text, 'path: '))))
    return key, done.returncode == 0 and packed.returncode == 0 and read(room + '/count') == 'run\n'


def is_safe(text):
    """Whether it may only read the repository, and no pull request starts it on a self-hosted machine."""
    return '\npermissions:\n  contents: read\n' in text and not ('pull_request' in text and 'self-hosted' in text)


def build(room, text, clone):
    return is_safe(text) and built(room, text, clone)[1]


def check(room, text, clone):
    """The program comes from the cache by its key, and its findings are marked; so is the error without the cache."""
    maker = recipes(clone)['workflow-build']
    key, good = built(room, maker, clone)
    patterns = lines.patterns_of(json.loads(recipes(clone)['matcher'])['problemMatcher'])
    script_of = '\n'.join(block(text, 'run: '))
    fresh = Clone(room + '/fresh', 'exit 1\n')
    good = good and fresh.key(text) == key and block(text, 'path: ') == block(maker, 'path: ')

    def marked():
        done = fresh.run(RUN_BASH, script_of)
        return done.returncode and [hit for line in done.stdout.splitlines() for hit in lines.matches(patterns, line)]

    without = marked()
    fresh.run(RUN, "tar -xzf '%s/cache'" % room)
    with_cache = marked()
    return (good and is_safe(text) and without and without[0][0] == 'yamlfmt-hooks'
            and with_cache == [('yamlfmt', *FOUND)])


def script_lines(text):
    """The commands below `script:`, each in a block scalar."""
    return '\n'.join(line.strip() for line in text.split('  script:\n    - |\n')[1].splitlines())


def gitlab(room, text, clone):
    """Shows changes and fails; passes if all files are formatted; fails if Git fails."""
    repository(room)
    before = sh([*RUN_BASH, script_lines(text)], room)
    write(room + '/a b.yaml', GOOD)
    after = sh([*RUN_BASH, script_lines(text)], room)
    lost = sh([*RUN_BASH, script_lines(text)], room, env={'GIT_TEST_ASSUME_DIFFERENT_OWNER': '1'})
    return before.returncode and '+a: "x"  # c' in before.stdout and not after.returncode and lost.returncode


def gitlab_changed(room, text, clone):
    repository(room)
    sh(['git', 'commit', '-qm', 'base'], room)
    base = sh(['git', 'rev-parse', 'HEAD'], room).stdout.strip()
    write(room + '/new.yaml', BAD)
    sh(['git', 'add', 'new.yaml'], room)
    sh(['git', 'commit', '-qm', 'merge request'], room)
    said, lost = (sh([*RUN_BASH, script_lines(text)], room, env={'CI_MERGE_REQUEST_DIFF_BASE_SHA': name}) for name in (base, 'f' * 40))
    return (said.returncode == 1 and '+++ new.yaml\n' in said.stdout and 'a b.yaml' not in said.stdout
            and lost.returncode not in (0, 1))
