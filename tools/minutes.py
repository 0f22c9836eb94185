#!/usr/bin/env python3
"""Says what a gate costs: the processor minutes of each crate, of must-fail edits and of all else, their sum, and the
longest chain of crates of which each waits for the one before it. It has no part in the gate's verdict.

tools/minutes.py run FILE [COMMAND..]    runs the gate, `.ci/run` without a command, and writes to FILE what it took
tools/minutes.py beside PID FILE         the same of a gate that is running, from now on until it ends
tools/minutes.py table FILE..            prints the table of several such files; of a crate the latest that has it
tools/minutes.py write FILE..            writes the table into docs/PROVING.md

The gate's log has no times, so the processor times of its processes are read every two seconds while it runs. What
begins and ends between two looks is missed.
"""
import json
import os
import re
import subprocess
import sys
import time

TOP = os.path.dirname(os.path.dirname(os.path.abspath(__file__)))
PAGE = f'{TOP}/docs/PROVING.md'
BEGIN, END = '<!-- Written by tools/minutes.py. -->\n', '<!-- To here. -->\n'
TICKS = os.sysconf('SC_CLK_TCK')
PAUSE = 2
# Crates that take less than this many minutes have no line of their own.
LEAST = 1


def libraries_of(text):
    """For each crate of a text like crates.txt those of the same text that it lists."""
    lines = [line.split('#')[0].partition(':') for line in text.splitlines()]
    listed = {name.split()[0]: uses.split() for name, _, uses in lines if name.split()}
    return {name: [it for it in uses if it in listed] for name, uses in listed.items()}


def stat_of(text):
    """The parent, the processor seconds and the start of a process, from its line in /proc."""
    fields = text.rpartition(')')[2].split()
    return int(fields[1]), (int(fields[11]) + int(fields[12])) / TICKS, fields[19]


def kind_of(words):
    """What a process does: the crate that it proves from nothing, what it does beside, or `other`."""
    if os.path.basename(words[0]) != 'rattle' or '--crate-name' not in words:
        return 'other'
    name = words[words.index('--crate-name') + 1]
    proves = '-o' in words and words[words.index('-o') + 1].endswith(f'/crates/{name}/out/rlib/{name}.rlib')
    return name if proves else f'beside {name}'


def processes():
    """All processes: for each its number, its parent, its processor seconds, its start and its command line."""
    for number in filter(str.isdigit, os.listdir('/proc')):
        try:
            with open(f'/proc/{number}/stat', encoding='utf-8', errors='replace') as file:
                parent, seconds, start = stat_of(file.read())
            with open(f'/proc/{number}/cmdline', encoding='utf-8', errors='replace') as file:
                words = file.read().split('\0')
        except (OSError, IndexError, ValueError):
            continue
        yield int(number), parent, seconds, start, words


def look(root, seen):
    """Notes what the processes below one have taken so far."""
    found = {number: it for number, *it in processes()}
    below = {root}
    grown = True
    while grown:
        grown = {number for number, it in found.items() if it[0] in below} - below
        below |= grown
    for number in below & set(found):
        _, seconds, start, words = found[number]
        seen[f'{number} {start}'] = (kind_of(words), seconds)
    return root in found


def watch(root, path, ended):
    """Looks at a process and those below it until it ends, and writes what they took."""
    seen, begun = {}, time.time()
    if not look(root, seen):
        sys.exit(f'there is no process {root}')
    while not ended() and look(root, seen):
        time.sleep(PAUSE)
    took = {}
    for kind, seconds in seen.values():
        took[kind] = took.get(kind, 0) + seconds
    with open(path, 'w', encoding='utf-8') as file:
        json.dump({'clock': time.time() - begun, 'took': took}, file, indent=1, sort_keys=True)


def run(path, command):
    """Runs the gate and watches it. Answers its status."""
    gate = subprocess.Popen(command or [f'{TOP}/.ci/run'])
    watch(gate.pid, path, lambda: gate.poll() is not None)
    return gate.wait()


def joined(paths):
    """What several files have together: of each kind what the latest one that has it says."""
    took = {}
    for path in paths:
        try:
            with open(path, encoding='utf-8') as file:
                took.update(json.load(file)['took'])
        except (OSError, ValueError, KeyError) as fault:
            sys.exit(f'{path} has no minutes: {fault!r}')
    return took


def chain_of(libraries, minutes):
    """The longest chain of crates: its minutes, and its crates from the lowest on."""
    longest = {}

    def of(name):
        if name not in longest:
            below = max((of(it) for it in libraries[name]), default=(0, []))
            longest[name] = (below[0] + minutes.get(name, 0), [*below[1], name])
        return longest[name]

    return max((of(name) for name in libraries), default=(0, []))


def table(libraries, took):
    """The table of minutes, and what they come to, as lines of a page."""
    minutes = {name: seconds / 60 for name, seconds in took.items()}
    crates = {name: minutes[name] for name in libraries if name in minutes}
    beside = sum(it for name, it in minutes.items() if name.startswith('beside '))
    chain, names = chain_of(libraries, crates)
    rows = {}
    for name, it in crates.items():
        if it >= LEAST:
            rows.setdefault(round(it), []).append(f'`{name}`')
    lines = ['| Minutes | Crates |', '|---|---|']
    lines += [f'| {it} | {", ".join(sorted(rows[it]))} |' for it in sorted(rows, reverse=True)]
    missing = sorted(set(libraries) - set(crates))
    return '\n'.join([
        *lines, '',
        f'The other crates take less than a minute each. {len(crates)} crates take {sum(crates.values()):.0f} minutes'
        f' together; must-fail edits, and what is compiled again, {beside:.0f}; all else'
        f' {minutes.get("other", 0):.0f}.',
        *([f'Not seen: {", ".join(f"`{it}`" for it in missing)}.'] if missing else []),
        f'The longest chain takes {chain:.0f}: {" > ".join(f"`{it}`" for it in names)}.', ''])


def write(lines):
    """Puts the table into the page, between the two marks."""
    with open(PAGE, encoding='utf-8') as file:
        page = file.read()
    front, _, rest = page.partition(BEGIN)
    _, there, back = rest.partition(END)
    if not there:
        sys.exit(f'{PAGE} has no place for the table')
    with open(PAGE, 'w', encoding='utf-8') as file:
        file.write(front + BEGIN + lines + END + back)


def main(words):
    """Does what the words of the command line say, and answers a status."""
    with open(f'{TOP}/crates.txt', encoding='utf-8') as file:
        libraries = libraries_of(file.read())
    if words[:1] == ['run'] and len(words) > 1:
        return run(words[1], words[2:])
    if words[:1] == ['beside'] and len(words) == 3 and words[1].isdigit():
        return watch(int(words[1]), words[2], lambda: False)
    if words[:1] in (['table'], ['write']) and len(words) > 1:
        lines = table(libraries, joined(words[1:]))
        return write(lines) if words[0] == 'write' else print(lines, end='')
    sys.exit(__doc__)


if __name__ == '__main__':
    sys.exit(main(sys.argv[1:]))
