"""Scratch folders for bench/recipes.py: hooks that build nothing, repositories, and the recipes."""
import os
import re
import shutil
import subprocess

TOP = os.path.dirname(os.path.dirname(os.path.abspath(__file__)))
BAD = '---\na: "x" # c\n'
GOOD = '---\na: "x"  # c\n'
NOISE = 'yamlfmt: building the program'
VERBS = (['check'], ['fmt', '--check'], ['fmt', '--diff'], ['fmt', '--write'])


class NoTool(Exception):
    """A recipe can't be tried, since this tool is not installed."""


def recipes(clone):
    """The recipes of docs/RECIPES.md by name, with the hooks of the clone."""
    found = re.findall(r'<!-- recipe: ([a-z-]+) -->\n```\w+\n(.*?)```', read(TOP + '/docs/RECIPES.md'), re.S)
    return {name: text.replace('YAMLFMT/', clone + '/').replace('/usr/share/yamlfmt/', clone + '/') for name, text in found}


def with_hooks(clone, program):
    """Puts the hooks into the folder, with a hooks/program that prints a message and the path of the program."""
    os.makedirs(clone + '/hooks')
    for name in os.listdir(TOP + '/hooks'):
        shutil.copy(TOP + '/hooks/' + name, clone + '/hooks/' + name)
    script(clone + '/hooks/program', "echo '%s' >&2\necho '%s'\n" % (NOISE, program))


def environment(room):
    """The environment of a command: the tools of the scratch folder first, and no settings of the user."""
    kept = {name: value for name, value in os.environ.items() if not name.startswith(('GIT_', 'YAMLFMT_'))}
    return dict(kept, PATH=room + '/bin:' + os.environ['PATH'], HOME=room, GIT_CONFIG_NOSYSTEM='1')


def sh(words, room, env=None, **more):
    """Runs a command in the scratch folder; standard error joins standard output by default."""
    more = dict({'cwd': room, 'stdout': subprocess.PIPE, 'stderr': subprocess.STDOUT, 'text': True}, **more)
    return subprocess.run(words, env=dict(environment(room), **(env or {})), **more)


def repository(room):
    """A repository with two staged files: one that is not in the house style, and one that is not YAML."""
    for line in ('git init -q .', 'git config user.email a@example.com', 'git config user.name a'):
        sh(line.split(), room)
    write(room + '/a b.yaml', BAD)
    write(room + '/c.txt', 'text\n')
    sh(['git', 'add', 'a b.yaml', 'c.txt'], room)


def write(path, text):
    os.makedirs(os.path.dirname(path), exist_ok=True)
    with open(path, 'w', encoding='utf-8', newline='') as file:
        file.write(text)


def script(path, text):
    """Writes a shell script."""
    write(path, '#!/bin/sh\n' + text)
    os.chmod(path, 0o755)


def read(path):
    with open(path, encoding='utf-8', newline='') as file:
        return file.read()
