#!/usr/bin/env python3
"""Times whole commands of the kit: `rt ci` or a part of it, in processor seconds and by the clock.

Usage: bench/gate.py [--in FOLDER] [--lanes N] [--log FILE] [COMMAND..]

It clones the last commit into FOLDER (default: a temporary folder; an existing one is used as it is) and runs one
COMMAND after another there, each exactly as `rt` defines it:

    ci                the merge gate, from nothing (the default)
    ci:NAME           the gate of one crate, with a kit that accepts a name after `rt ci`
    must-fail:NAME    the must-fail edits of one crate
    verdict:NAME      the proofs of one crate, those below it, and its tests, from nothing
    check:NAME        the proof of one crate, after earlier commands
    test:NAME         the proof and run of its tests, after earlier commands

For each it prints the processor seconds (user and system, of the command and of all processes that it started and
waited for), the seconds by the clock, the command and its last line. It returns 1 if a command fails. FILE gets the
output, each line after the seconds by the clock at which it came. With --lanes `rt ci` does N things at a time, each
with one job (by RT_JOBS, which `rt help` doesn't mention).
"""
import argparse
import os
import resource
import subprocess
import sys
import tempfile
import time

TOP = os.path.dirname(os.path.dirname(os.path.abspath(__file__)))
AT_THE_TOP = ("ci", "must-fail")
IN_A_CRATE = ("verdict", "check", "test")


def words_of(command):
    """The arguments of a command, and its folder below the top."""
    verb, _, name = command.partition(":")
    if verb in AT_THE_TOP and (name or verb == "ci"):
        return ["rt", verb, name or "--anew"], "."
    if verb in IN_A_CRATE and name:
        return ["rt", verb], os.path.join("crates", name)
    sys.exit(f"{command}: no such command\n\n{__doc__}")


def processor_seconds():
    used = resource.getrusage(resource.RUSAGE_CHILDREN)
    return used.ru_utime + used.ru_stime


def timed(words, folder, environment, log):
    """Processor seconds, seconds by the clock, the status and the last line of a command."""
    spent, begun, last = processor_seconds(), time.monotonic(), ""
    with subprocess.Popen(words, cwd=folder, env=environment, stdout=subprocess.PIPE, stderr=subprocess.STDOUT, text=True) as command:
        for line in command.stdout:
            last = line.strip() or last
            log.write(f"{time.monotonic() - begun:8.1f} {line}")
    return processor_seconds() - spent, time.monotonic() - begun, command.returncode, last


def main():
    asked = argparse.ArgumentParser(usage=__doc__)
    asked.add_argument("--in", dest="folder")
    asked.add_argument("--lanes", type=int)
    asked.add_argument("--log", default=os.devnull)
    asked.add_argument("commands", nargs="*")
    given = asked.parse_args()
    commands = [words_of(command) for command in given.commands or ["ci"]]
    environment = {**os.environ, **({"RT_JOBS": str(given.lanes)} if given.lanes else {})}
    failed = False
    with tempfile.TemporaryDirectory(prefix="gate-") as room, open(given.log, "w", buffering=1, encoding="utf-8") as log:
        folder = os.path.abspath(given.folder or os.path.join(room, "clone"))
        if not os.path.isdir(folder):
            subprocess.run(["git", "clone", "-q", TOP, folder], check=True)
        for words, below in commands:
            spent, passed, status, last = timed(words, os.path.join(folder, below), environment, log)
            failed = failed or status != 0
            where = "" if below == "." else f" in {below}"
            print(f"{spent:8.0f} {passed:8.0f}  {' '.join(words)}{where}: {last}", flush=True)
    sys.exit(1 if failed else 0)


if __name__ == "__main__":
    main()
