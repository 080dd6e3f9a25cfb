"""The recipes for editors: run in the editor if it is installed, or else by their commands and patterns."""
import json
import os
import re
import shlex
import tomllib

import lines
from left import INVENTORY, VAULT
from scratch import BAD, GOOD, NOISE, NoTool, read, recipes, repository, sh, write

SINGLE = GOOD.replace('"', "'")
TEXTS = {'a b.yaml': BAD, 'deep/a.yaml': BAD, 'bad.yaml': 'a: b: c\n', 'template.yaml': 'a: {{ x }}\n', 'vault.yaml': VAULT, 'inventory.yaml': INVENTORY}
WANTED = dict(TEXTS, **{'a b.yaml': SINGLE, 'deep/a.yaml': SINGLE})
SAID = {'bad.yaml': '1:5 refused: syntax', 'template.yaml': 'left alone: template',
        'inventory.yaml': 'left alone: no data'}
FOUND = ('a b.yaml', '2', '8', 'comment-space (fixable)')


def fresh(room):
    """The files to format, with their settings."""
    os.makedirs(room + '/.git', exist_ok=True)
    write(room + '/.yamlfmt.toml', 'quotes = "single"\n')
    for name, text in TEXTS.items():
        write(room + '/' + name, text)


def edited(room, edit):
    """Whether each edited file has only the formatted text; or, if there is none, its own text after a message."""
    fresh(room)
    said = {name: edit(name) for name in TEXTS}
    return {name: read(room + '/' + name) for name in TEXTS} == WANTED and all(words in said[name] for name, words in SAID.items())


def vim_alike(room, words):
    """Tries :YamlFormat and :make of the editor that the command starts."""
    fresh(room)
    sh(words + ['-c', 'set ft=yaml | silent make % | call writefile([string(getqflist())], "found")', '-c', 'q', 'deep/a.yaml'], room, timeout=60)
    found = read(room + '/found')

    def edit(name):
        sh(words + ['-c', 'redir! > said', '-c', 'YamlFormat', '-c', 'redir END', '-c', 'wq', name], room, timeout=60)
        return read(room + '/said')

    return "'lnum': 2" in found and "'col': 8" in found and edited(room, edit)


def vim(room, text, clone):
    write(room + '/vimrc', 'filetype on\n' + text)
    return vim_alike(room, ['vim', '-N', '-u', room + '/vimrc', '-i', 'NONE', '-es'])


def nvim_words(room, text):
    write(room + '/init.lua', text)
    return ['nvim', '--headless', '-n', '-u', room + '/init.lua', '-i', 'NONE']


def neovim(room, text, clone):
    return vim_alike(room, nvim_words(room, text))


def neovim_save(room, text, clone):
    words = nvim_words(room, recipes(clone)['neovim'] + text)
    return edited(room, lambda name: sh(words + ['-c', 'w', '-c', 'q', name], room, timeout=60).stdout)


def emacs_words(room, text, name):
    write(room + '/init.el', text)
    return ['emacs', '-Q', '--batch', '-l', room + '/init.el', name, '--eval']


NEXT_ERROR = '''(progn (yamlfmt-check)
  (while (get-buffer-process "*compilation*") (accept-process-output nil 0.1))
  (next-error)
  (princ (format "at %s %d %d" (buffer-name) (line-number-at-pos) (current-column))))'''
NARROWED = '(progn (goto-char (point-max)) (forward-line -1) (narrow-to-region (point) (point-max)) (yamlfmt-buffer) (save-buffer))'


def emacs(room, text, clone):
    """Formats whole buffers, also if only a part is visible, and visits the first finding of a file."""
    def edit(name, by='(progn (yamlfmt-buffer) (save-buffer))'):
        return sh(emacs_words(room, text, name) + [by], room, timeout=60).stdout

    good = edited(room, edit)
    fresh(room)
    found = edit('deep/a.yaml', NEXT_ERROR)
    edit('deep/a.yaml', NARROWED)
    return good and 'at a.yaml 2 3' in found and read(room + '/deep/a.yaml') == SINGLE


def emacs_save(room, text, clone):
    both = recipes(clone)['emacs'] + text
    touch = '(progn (set-buffer-modified-p t) (save-buffer))'
    return edited(room, lambda name: sh(emacs_words(room, both, name) + [touch], room, timeout=60).stdout)


def vscode(room, text, clone):
    """The task's command, and its patterns, which must equal those of the matcher for GitHub."""
    repository(room)
    task = json.loads(text)['tasks'][0]
    patterns = lines.patterns_of(task['problemMatcher'])
    of_github = lines.patterns_of(json.loads(recipes(clone)['matcher'])['problemMatcher'])
    same = all({**pattern, 'kind': 0} == {**of_github[owner], 'kind': 0} for owner, pattern in patterns.items())
    done = sh(['sh', '-c', task['command']], room)
    return same and ('yamlfmt', *FOUND) in [hit for line in done.stdout.splitlines() for hit in lines.matches(patterns, line)]


def jetbrains(room, text, clone):
    """The program with the arguments, and the output filter, with the values of macros."""
    fields = dict(line.split(': ', 1) for line in text.splitlines())
    fresh(room)

    def edit(name):
        arguments = fields['Arguments'].replace('$FilePath$', room + '/' + name)
        return sh([fields['Program'], *shlex.split(arguments)], room).stdout

    good = edited(room, edit)
    rule = fields['Output filters']
    for macro, pattern in (('$FILE_PATH$', '(.+?)'), ('$LINE$', r'(\d+)'), ('$COLUMN$', r'(\d+)'), ('$MESSAGE$', '(.+)')):
        rule = rule.replace(macro, pattern)
    hit = re.search('^%s$' % rule, edit('bad.yaml'), re.M)
    return good and hit and hit.groups() == (room + '/bad.yaml', '1', '5', 'refused: syntax')


# The server. In a session the editor opens a file, waits for its problems, adds the line of MORE, waits again, formats
# the buffer, waits, and saves. It prints the problems of each time: line and column from 0, the severity, the rule.
MORE = 'b: "y" # \U0001F600'
SESSIONS = {
    'a b.yaml': (BAD, GOOD + MORE.replace(' #', '  #') + '\n', [[[1, 7, 'W', 'comment-space']],
                 [[1, 7, 'W', 'comment-space'], [2, 7, 'W', 'comment-space']], []]),
    'bad.yaml': ('a: b: c\n', 'a: b: c\n' + MORE + '\n', [[[0, 4, 'E', 'syntax']]] * 3),
}
NVIM_SESSION = '''
local wanted = vim.fn.json_decode(vim.fn.readfile('wanted'))
local function show(many)
  vim.wait(20000, function() return #vim.diagnostic.get(0) == many end, 20)
  local found = {}
  for _, one in ipairs(vim.diagnostic.get(0)) do
    table.insert(found, { one.lnum, one.col, one.severity == vim.diagnostic.severity.ERROR and 'E' or 'W', one.code })
  end
  vim.fn.writefile({ vim.fn.json_encode(found) }, 'found', 'a')
end
show(wanted[1])
vim.api.nvim_buf_set_lines(0, -1, -1, false, { MORE })
show(wanted[2]);
(vim.lsp.buf.format or vim.lsp.buf.formatting_sync)()
show(wanted[3])
vim.cmd('wq')
'''
EMACS_SESSION = '''
(defun show (many)
  (let ((left 200))
    (while (and (> left 0) (/= many (length (flymake-diagnostics))))
      (setq left (1- left))
      (accept-process-output nil 0.1)
      (flymake-start)))
  (append-to-file
   (concat (json-encode
            (vconcat
             (mapcar (lambda (one)
                       (save-excursion
                         (goto-char (flymake-diagnostic-beg one))
                         (string-match "\\\\[\\\\(.*\\\\)\\\\]" (flymake-diagnostic-text one))
                         (vector (1- (line-number-at-pos)) (- (point) (line-beginning-position))
                                 (if (eq (flymake-diagnostic-type one) 'eglot-error) "E" "W")
                                 (match-string 1 (flymake-diagnostic-text one)))))
                     (flymake-diagnostics))))
           "\\n")
   nil "found"))
(let ((wanted (json-read-file "wanted")))
  (run-hooks 'post-command-hook)
  (show (aref wanted 0))
  (goto-char (point-max))
  (insert MORE "\\n")
  (eglot--signal-textDocument/didChange)
  (show (aref wanted 1))
  (ignore-errors (eglot-format-buffer))
  (eglot--signal-textDocument/didChange)
  (show (aref wanted 2))
  (save-buffer)
  (kill-emacs))
'''


def sessions(room, words, session):
    """Whether the sessions show the problems and leave the texts of SESSIONS, by the editor that the words start."""
    write(room + '/session', session.replace('MORE', json.dumps(MORE, ensure_ascii=False)))
    good = True
    for name, (before, after, problems) in SESSIONS.items():
        write(room + '/' + name, before)
        write(room + '/wanted', json.dumps([len(found) for found in problems]))
        write(room + '/found', '')
        said = sh(words(name), room, timeout=120).stdout
        found = [[tuple(one) for one in json.loads(line) or []] for line in read(room + '/found').splitlines()]
        wanted = [[tuple(one) for one in some] for some in problems]
        if read(room + '/' + name) != after or [sorted(one) for one in found] != wanted:
            print('  %s: %r, %r: %s' % (name, read(room + '/' + name), found, said))
            good = False
    return good


def neovim_server(room, text, clone):
    return sessions(room, lambda name: nvim_words(room, text) + ['-c', 'luafile session', name], NVIM_SESSION)


def neovim_enable(room, text, clone):
    """The form for Neovim 0.11."""
    release = re.search(r'v(\d+)\.(\d+)', sh(['nvim', '--version'], room).stdout)
    if (int(release[1]), int(release[2])) < (0, 11):
        raise NoTool('Neovim 0.11')
    return neovim_server(room, text, clone)


def neovim_server_save(room, text, clone):
    write(room + '/a b.yaml', BAD)
    wait = 'lua vim.wait(20000, function() return #vim.diagnostic.get(0) > 0 end, 20)'
    words = nvim_words(room, recipes(clone)['neovim-server'] + text)
    sh(words + ['-c', wait, '-c', 'wq', 'a b.yaml'], room, timeout=60)
    return read(room + '/a b.yaml') == GOOD


def emacs_server(room, text, clone):
    started = ['emacs', '-q', '--batch', '--eval', '(package-initialize)']
    for package in ('eglot', 'yaml-mode'):
        if sh(started + ['--eval', "(require '%s)" % package], room, timeout=60).returncode:
            raise NoTool(package)
    write(room + '/init.el', text)
    return sessions(room, lambda name: started + ['-l', 'init.el', name, '-l', 'session'], EMACS_SESSION)


def words_of_server(given):
    """The command in the settings of an editor: a list, or the program and a list of arguments."""
    if not isinstance(given, dict):
        return None
    program, arguments = (given.get('command', given.get('path')), given.get('args', given.get('arguments', [])))
    if program:
        return program if isinstance(program, list) else [program, *arguments]
    return next(filter(None, map(words_of_server, given.values())), None)


def server_settings(room, text, clone):
    """The command in the settings starts the server, which ends with status 1 at the end of its input."""
    words = words_of_server(tomllib.loads(text) if text.startswith('[') else json.loads(text))
    done = sh(words, room, input='', timeout=60)
    return words == ['yamlfmt', 'server'] and (done.returncode, done.stdout) == (1, NOISE + '\n')
