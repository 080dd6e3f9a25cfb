"""How hooks/build and hooks/program build, with a small script as `rt`. bench/recipes.py runs this.

It tests which crates are at work at the same time, what ends after a failure and an interrupt, and what a call does
while `rt ci` is at work and after `rt ci` was interrupted.

A call during a real `rt ci` is not tested. To try it, build the program, start `rt ci`, and call `./yamlfmt --version`
while it runs and after Ctrl-C: each call must print the version at once. In a second clone without a program,
`./yamlfmt --version` must fail with one line while `rt ci` runs.
"""
import os
import shutil
import signal
import subprocess
import time

from faults import LOGIC, SAYS_LOGIC, Builder
from scratch import environment, read, script, sh, write

# It records its beginning and end, its folder and its arguments. A crate in FAILS fails, and a crate in HANGS never ends.
RT = SAYS_LOGIC + r"""crate=${PWD##*/}
top=${PWD%/crates/*}
echo "begin $crate $top $$ $*" >> "$COUNT"
echo "so far: 1 of 2 functions checked"
case " ${WAITS-} " in *" $crate "*) echo "rt: waiting for another rt to finish in $PWD" >&2; sleep 60 ;; esac
case " ${HANGS-} " in *" $crate "*) sleep 60 ;; esac
sleep 0.3
case " ${FAILS-} " in *" $crate "*) echo "error: not proved"; exit 1 ;; esac
if [ "$1" = run ]; then
    mkdir -p out
    printf '#!/bin/sh\necho built "$@"\n' > out/yamlfmt
    chmod +x out/yamlfmt
fi
echo "end $crate $top $$" >> "$COUNT"
"""
CRATES = {'low': [], 'left': ['low'], 'right': ['low'], 'alone': [], 'long': ['left', 'low'], 'longer': ['long', 'left', 'low'],
          'yamlfmt': ['longer', 'right', 'alone'], 'bench': ['low']}


class Wide(Builder):
    """A clone with crates that don't all depend on each other."""

    def __init__(self, room):
        super().__init__(room)
        shutil.rmtree(self.top + '/crates')
        os.mkdir(self.top + '/.git')
        write(self.top + '/crates.txt', ''.join('%s: %s std\n' % (name, ' '.join(below)) for name, below in CRATES.items()))
        for name in CRATES:
            write('%s/crates/%s/src/lib.rt' % (self.top, name), name)
            write('%s/crates/%s/must-fail/a.edit' % (self.top, name), name)
        write(self.top + '/crates/yamlfmt/stdin', 'a\n')
        write(self.top + '/crates/yf_command_line/src/build.rt', 'pub const LOGIC: &str = "%s";\n' % LOGIC)
        script(room + '/bin/rt', RT)

    def steps(self):
        """The records of rt: begin or end, the crate, the copy of the sources, the process, and the arguments."""
        lines = [line.split(' ', 4) for line in read(self.count).splitlines()]
        return [(what, crate, top, int(pid), ''.join(words)) for what, crate, top, pid, *words in lines]

    def begin(self, *words, **more):
        """Starts a command in its own session, and waits until two crates have begun."""
        env = dict(environment(self.room), COUNT=self.count, **more)
        call = subprocess.Popen(['bash', self.top + '/' + words[0], *words[1:]], env=env, cwd=self.room, text=True, start_new_session=True,
                                stdout=subprocess.PIPE, stderr=subprocess.STDOUT)
        for _ in range(100):
            if len(self.steps()) >= 2:
                break
            time.sleep(0.1)
        return call

    def is_over(self):
        """Whether no rt is left, and no process that it started."""
        return not any(is_group(step[3]) for step in self.steps())


def is_group(number):
    """Whether the process group has a living process."""
    try:
        os.killpg(number, 0)
    except ProcessLookupError:
        return False
    return True


def crates_side_by_side(room, clone, recipes):
    """Each crate comes after those below it, and the longest chain first; no copy has two at once, and at most three
    crates are at work.
    """
    builder = Wide(room)
    done = builder.run('hooks/build', '--crates', '3', start_new_session=True)
    at_work, ended, most, good = {}, set(), 0, done.returncode == 0
    for what, crate, top, _, words in builder.steps():
        if what == 'end':
            ended.add(crate)
            del at_work[crate]
        else:
            good = good and set(CRATES[crate]) <= ended and top not in at_work.values()
            at_work[crate] = top
            most = max(most, len(at_work))
    begun = [(step[1], step[4]) for step in builder.steps() if step[0] == 'begin']
    chain = [step[1] for step in builder.steps() if step[0] == 'begin' and step[2] == builder.top]
    good = good and most in (2, 3) and begun[-1] == ('yamlfmt', 'run -- events') and chain == ['low', 'left', 'long', 'longer', 'yamlfmt']
    return (good and ended == set(CRATES) - {'bench'} and '6 of 7 crates are proved; now yamlfmt' in done.stdout
            and not os.path.exists(builder.top + '/.git/yamlfmt-build') and len(begun) == 7)


def crates_one_by_one(room, clone, recipes):
    """All are in the clone, and rt chooses the number of processes."""
    builder = Wide(room)
    done = builder.run('hooks/build', '--crates', '1', start_new_session=True)
    words = [step[4] for step in builder.steps() if step[0] == 'begin']
    places = {step[2] for step in builder.steps()}
    return done.returncode == 0 and places == {builder.top} and len(words) == 7 and not any('--jobs' in word and '--jobs 1' not in word for word in words)


def failed_crate_stops_the_rest(room, clone, recipes):
    builder = Wide(room)
    began = time.monotonic()
    done = builder.run(env={'FAILS': 'left', 'HANGS': 'right alone'}, start_new_session=True)
    says = 'error: not proved' in done.stdout and 'left could not be proved: see ' in done.stdout and "and can't be: see" in done.stdout
    kept = os.path.isdir(builder.top + '/.git/yamlfmt-build')
    return says and done.returncode == 3 and builder.is_over() and time.monotonic() - began < 30 and kept and builder.run().returncode == 0


def interrupts_end_the_build(room, clone, recipes):
    """After Ctrl-C, which reaches all processes, or kill of one, no process is left, and the next call builds."""
    builder = Wide(room)
    for send, number, wanted in ((os.killpg, signal.SIGINT, (130, -2)), (os.kill, signal.SIGTERM, (143,)), (os.kill, signal.SIGHUP, (129,))):
        call = builder.begin('hooks/program', HANGS='low left right alone')
        send(call.pid, number)
        call.communicate(timeout=30)
        if call.returncode not in wanted or not builder.is_over():
            print('  status %d' % call.returncode)
            return False
        write(builder.count, '')
    call = builder.begin('hooks/program', HANGS='low left right alone')
    call.kill()
    call.communicate(timeout=30)
    return builder.is_over() and builder.run().returncode == 0


def another_rt_works_in_the_clone(room, clone, recipes):
    """While rt ci works in a clone without a program, nothing is built, and one line says so."""
    builder = Wide(room)
    done = builder.run(env={'WAITS': 'low'}, start_new_session=True)
    lines = done.stdout.splitlines()
    again = builder.run()
    return done.returncode == 3 and 'another rt works in' in lines[-1] and len(lines) == 2 and builder.is_over() and again.returncode == 0


def gate_takes_no_program_away(room, clone, recipes):
    """A call starts at once while rt ci has moved the folders out aside, after its interrupt, or without them."""
    builder = Builder(room)
    builder.run()
    said = []
    for crate in ('yf_one', 'yamlfmt'):
        os.makedirs('%s/crates/%s/out' % (builder.top, crate), exist_ok=True)
        os.rename('%s/crates/%s/out' % (builder.top, crate), '%s/aside-%s' % (room, crate))
    said.append(builder.run('yamlfmt', 'x').stdout)
    os.makedirs(builder.top + '/crates/yamlfmt/out')
    script(builder.top + '/crates/yamlfmt/out/yamlfmt.half', 'exit 1\n')
    said.append(builder.run('yamlfmt', 'x').stdout)
    sh(['rm', '-rf', 'crates/yamlfmt/out'], builder.top)
    said.append(builder.run('yamlfmt', 'x').stdout)
    said.append(builder.run('hooks/program', '--built').stdout.replace(os.path.realpath(builder.top), 'top'))
    return said == ['built x\n'] * 3 + ['top/.build/yamlfmt\n'] and builder.builds() == 1


def gate_leaves_a_program(room, clone, recipes):
    """The program that rt left is copied into .build, so that the next rt ci removes no program."""
    builder = Builder(room)
    script(builder.top + '/crates/yamlfmt/out/yamlfmt', 'echo left\n')
    said = [builder.run('yamlfmt').stdout]
    sh(['rm', '-rf', 'crates/yamlfmt/out'], builder.top)
    said.append(builder.run('yamlfmt').stdout)
    return said == ['left\n'] * 2 and builder.builds() == 0


EACH = [crates_side_by_side, crates_one_by_one, failed_crate_stops_the_rest, interrupts_end_the_build, another_rt_works_in_the_clone,
        gate_takes_no_program_away, gate_leaves_a_program]
