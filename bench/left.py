"""What is left alone: templates, encrypted files and plain text. The program decides. bench/recipes.py runs this."""
import re
import shutil
import subprocess

from faults import commit, each_file, hooked
from scratch import BAD, GOOD, NOISE, VERBS, read, repository, script, sh, write

VAULT = '$ANSIBLE_VAULT;1.1;AES256\n3366386133316562\n6131326138613937\n'
INVENTORY = 'web1 ansible_host=10.0.0.1\nweb2 ansible_host=10.0.0.2\n'

TEMPLATES = {
    'value.yaml': 'name: {{ x }}\n',
    'key.yaml': '{{ x }}: 1\n',
    'item.yaml': '- [{{ x }}]\n',
    'after.yaml': 'a: "{{ x }}" # {{ y }}\nb: {{ z }}\n',
}
NO_TEMPLATES = {
    'workflow.yaml': 'on: push # c\nrun: ${{ github.ref }}\ntest: |\n  echo ${{ matrix.a }}\n',
    'quotes.yaml': 'a: "{{ x }}" # c\nb: \'{% x %}\'\nc: "two\n  {{ lines }}"\n',
    'comments.yaml': 'a: 1 # {{ x }}\n# {% y %}\n',
    'docker.yaml': "run: |  # c\n  docker ps --format '{{.Names}}' -f \"{{.Id}}\"\nx: 1 # c\n",
    'braces.yaml': 'a: {b: {c: d}} # c\ne: "{{"\n',
    'plain.yaml': "name: build {{version}}\na: don't {{ x }} and won't\nb: ${{ x }}-{{ y }}\n",
    'block.yaml': 'config: |\n  name: {{ x | nindent 4 }}\n  {% if y %}\n',
}
# Templates that are no YAML.
REFUSED = {
    'helm.yaml': '{{- if .Values.a }}\na: "{{ b }}"\n{{- end }}\n',
    'alone.yaml': '{{ if .Values.a }} # c\n# d\na: 1\n{{ end }}\n',
    'jinja.yaml': '{% for x in y %}\n- a\n{% endfor %}\n',
    'comment.yaml': '{# c #}\na: 1\n',
    'directly.yaml': '\u00e9: {{ x }}-y\n',
    'spaced.yaml': 'a: 1\r\nb: {{ x }} y\r\n',
    'inside.yaml': 'a: {{ "x" | quote }}\n',
    'line.yaml': 'a: 1\n{{ toYaml .Values.b }}\nc: 2\n',
    'open.yaml': 'a: 1\nb: {{ x\n',
    'quote.yaml': 'a: "{{ x "y" }}"\n',
}

# Each has a document that is plain text over several lines.
TEXTS = {
    'inventory.yaml': INVENTORY,
    'marked.yaml': '--- a\n  b\n',
    'blank.yaml': 'a\n\nb\n',
    'remarked.yaml': '# c\n\na\nb # a b\n# d\n',
    'second.yaml': 'a: 1\n---\nb\nc\n',
    'bare.yaml': 'a: 1\n...\n# c\n%YAML 1.2\n---\n&x !y\nb\n%c\n',
    'breaks.yaml': 'a: 1\r---\rb\rc\r',
    'crlf.yaml': '\ufeffa\\b\r\nc\td\r\n',
    'noted.yaml': '--- &a # note: x\nfoo\nbar\n',
    'anchored.yaml': '&a:\nfoo\nbar\n',
    'tagged.yaml': '!!str # note: x\nfoo\nbar\n',
}
NO_TEXTS = {
    'one.yaml': '# c\na \\b\tc # d\n',
    'properties.yaml': '--- &x\n!y\nb # c\n',
    'quoted.yaml': "'a\n  b'\n",
    'folded.yaml': '--- >\n a\n b\n',
    'list.yaml': '- a\n  b\n',
    'key.yaml': 'a:\n  b\n  c\n---\nd\n',
}


def reported(said, words, kind):
    """The names of the files that the output reports as no data: by a finding, or with --write as left alone."""
    if '--write' in words:
        return re.findall('^(.*): left alone: %s$' % kind.replace('-', ' '), said, re.M)
    return re.findall('^(.*):[0-9]+:[0-9]+ %s$' % kind, said, re.M)


def stay(room, clone, kind, left, processed):
    """Whether the texts to leave alone are reported with status 1 and stay, and the other texts are processed."""
    for name, text in {**left, **processed}.items():
        write(room + '/' + name, text)
    names = [*left, *processed]
    done = [(words, each_file(clone, room, *words, '--', *names)) for words in VERBS]
    good = all(sorted(reported(one.stdout, words, kind)) == sorted(left) for words, one in done)
    good = good and done[-1][1].returncode == 1
    alone = [each_file(clone, room, *words, next(iter(left))) for words in VERBS]
    good = good and all(one.returncode == 1 and 'This repairs' not in one.stdout for one in alone)
    good = good and all(read(room + '/' + name) == text for name, text in left.items())
    return good and all(read(room + '/' + name) != text for name, text in processed.items())


def templates_stay(room, clone, recipes):
    return stay(room, clone, 'template', TEMPLATES, NO_TEMPLATES)


def texts_stay(room, clone, recipes):
    return stay(room, clone, 'no-data', TEXTS, NO_TEXTS)


def refused_templates_stay(room, clone, recipes):
    """A template that is no YAML is refused."""
    for name, text in REFUSED.items():
        write(room + '/' + name, text)
    done = [each_file(clone, room, *words, '--', *REFUSED) for words in VERBS]
    lines = ['^%s:[0-9]+:[0-9]+ refused: syntax$' % name for name in REFUSED]
    good = all(one.returncode == 2 and all(re.search(line, one.stdout, re.M) for line in lines) for one in done)
    return good and all(read(room + '/' + name) == text for name, text in REFUSED.items())


def any_text_is_taken(room, clone, recipes):
    """With --any-text all texts are processed, and the repairing command has it. --templates names it."""
    texts = {'template.yaml': TEMPLATES['value.yaml'], 'inventory.yaml': INVENTORY, 'vault.yaml': VAULT}
    for name, text in texts.items():
        write(room + '/' + name, text)
    gone = each_file(clone, room, 'check', '--templates=skip', *texts)
    done = [(words, each_file(clone, room, *words, '--any-text', *texts)) for words in VERBS]
    kinds = '(?:template|no-data|encrypted)'
    good = not any(reported(one.stdout, words, kinds) or 'left alone' in one.stdout for words, one in done)
    good = good and [one.returncode for _, one in done] == [1, 1, 1, 0]
    good = good and ' --any-text -- ' in done[1][1].stdout.splitlines()[-1]
    good = good and gone.returncode == 3 and '--any-text' in gone.stdout
    return good and all(read(room + '/' + name) != text for name, text in texts.items())


def vaults_stay(room, clone, recipes):
    """With status 0, since there is nothing to check."""
    hooked(room, clone, recipes['git'])
    write(room + '/vault.yaml', VAULT)
    done = [each_file(clone, room, *words, 'vault.yaml') for words in VERBS]
    good = all(one.returncode == 0 and 'vault.yaml: left alone: encrypted\n' in one.stdout for one in done)
    return good and read(room + '/vault.yaml') == VAULT and commit(room, 'vault.yaml').returncode == 0


def buffers_stay(room, clone, recipes):
    """With --stdin a text that is left alone or excluded is printed as it is."""
    repository(room)
    write(room + '/.yamlfmt.toml', 'exclude = ["out.yaml"]\n')
    wanted = {'t.yaml': (TEMPLATES['value.yaml'], 1, 't.yaml: left alone: template\n'),
              'i.yaml': (INVENTORY, 1, 'i.yaml: left alone: no data\n'),
              'v.yaml': (VAULT, 0, 'v.yaml: left alone: encrypted\n'), 'out.yaml': (BAD, 0, '')}
    good = True
    for name, (text, status, line) in wanted.items():
        done = each_file(clone, room, 'fmt', '--stdin', name, input=text, stderr=subprocess.PIPE)
        said = done.stderr.replace(NOISE + '\n', '')
        good = good and (done.returncode, done.stdout, said) == (status, text, line)
    return good


def texts_are_not_committed(room, clone, recipes):
    """Nor are templates: the Git hook refuses them with a message. Excluded files are ignored."""
    hooked(room, clone, recipes['git'])
    texts = {'inventory.yaml': INVENTORY, 'value.yaml': TEMPLATES['value.yaml']}
    for name, text in texts.items():
        write(room + '/' + name, text)
    refused = commit(room, *texts)
    write(room + '/.yamlfmt.toml', 'exclude = ["inventory.yaml", "value.yaml"]\n')
    passed = commit(room, *texts)
    good = refused.returncode and 'value.yaml:1:7 template' in refused.stdout and passed.returncode == 0
    return good and all(read(room + '/' + name) == text for name, text in texts.items())


def each_awk(room, clone, recipes):
    """Each awk presents the same lines."""
    texts = {'a b.yaml': BAD, "it's.yaml": BAD, 'refused.yaml': 'a: b: c\n', 'vault.yaml': VAULT, **TEMPLATES}
    for name, text in texts.items():
        write(room + '/' + name, text)
    found = set()
    for awk in (['gawk'], ['mawk'], ['original-awk'], ['busybox', 'awk']):
        path = shutil.which(awk[0])
        if not path:
            print('no %s' % awk[0])
            continue
        script(room + '/bin/awk', 'exec \'%s\' %s "$@"\n' % (path, ' '.join(awk[1:])))
        done = [each_file(clone, room, *words, '--', *texts, 'none.yaml') for words in VERBS[:3]]
        found.add(tuple(one.stdout for one in done))
    return len(found) == 1 and all("-- 'a b.yaml' 'it'\\''s.yaml'\n" in said for said in next(iter(found))[:2])


def templates_by_pathspec(room, clone, recipes):
    repository(room)
    write(room + '/charts/one/templates/a.yaml', BAD)
    write(room + '/charts/one/values.yaml', BAD)
    sh(['git', 'add', '.'], room)
    sh(['sh', '-c', recipes.get('folder-templates', 'true')], room)
    return read(room + '/charts/one/templates/a.yaml') == BAD and read(room + '/charts/one/values.yaml') == GOOD


EACH = [templates_stay, texts_stay, refused_templates_stay, any_text_is_taken, vaults_stay, buffers_stay,
        texts_are_not_committed, templates_by_pathspec, each_awk]
