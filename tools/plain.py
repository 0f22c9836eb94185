#!/usr/bin/env python3
"""Writes programs and the crates below them as plain Rust, which `cargo` builds without proofs in seconds.

tools/plain.py FOLDER PROGRAM..    writes a workspace for `cargo` into FOLDER, and touches no file that stays as it was

Rattle is Rust with contracts. What is only for the prover is dropped: clauses, `ghost` items, attributes. Rattle's own
library differs from Rust's in that a call may answer that memory ran out. What is used of it, and of the other
libraries of the kit, stands in tools/plain over Rust's own; of one that doesn't stand there the kit's sources are read.
What stands on a line of a source stands on the same line of what is written, so an error of `cargo` tells its place.
"""
import functools
import glob
import os
import re
import subprocess
import sys

TOP = os.path.dirname(os.path.dirname(os.path.abspath(__file__)))
STANDING_IN = f'{TOP}/tools/plain'
# Of what stands there that whose macros are programs.
MACROS = ('thiserror',)
# And what uses others that stand there.
ABOVE = {'clap': ['strsim']}
# How the names of variables begin by which `cargo` would build something else, or put it elsewhere.
NOT_FOR_CARGO = ('CARGO_BUILD_', 'CARGO_ENCODED_', 'CARGO_PROFILE_', 'CARGO_TARGET_', 'RUSTFLAGS')

# What is dropped with the brackets that follow it, and with one of some characters behind them. Brackets in texts and
# comments count too: what is dropped has none that stands alone.
DROPPED = [
    # Attributes for the prover and for `rt fmt`.
    (re.compile(r'#!?(?=\[(?:tactic|cycle|rattlefmt)\b)'), ''),
    # Items that are only for the prover.
    (re.compile(r'^[ \t]*ghost \w+\s*[=:]\s*(?=\{)', re.M), ';,'),
    # Clauses.
    (re.compile(r'^[ \t]*(?:requires|ensures)(?: \w+)?\s*(?=\{)', re.M), ''),
    # How a value is let go, which Rust finds by itself; none of these does more.
    (re.compile(r'^[ \t]*impl(?:<[^>]*>)? Drop for [^{]*(?=\{)', re.M), ''),
]
CHANGED = [
    # Imports for the prover.
    (re.compile(r'^[ \t]*ghost use [^;]*;', re.M), lambda found: blank(found[0])),
    # In Rattle a formatter has the type of what it writes to, and a copy may fail, as may what takes an allocator.
    (re.compile(r'<W: fmt::Write>'), ''),
    (re.compile(r'\bFormatter<W>'), "Formatter<'_>"),
    (re.compile(r'\.clone\(\)\?'), '.clone()'),
    (re.compile(r'\.(collect|replace|to_vec)(?:::<[^()]*>)?\((?=(?:\w+\.)?alloc\b)'), r'.\1_in('),
    # Rust has no derive of how a value is let go.
    (re.compile(r'#\[derive(?:_where)?\(([\w, ]*)\)\]'), lambda found: f'#[derive({derived(found[1])})]'),
    # A program is given its host.
    (re.compile(r'^fn main\((?=\w+: HostRuntime\))', re.M), 'fn run('),
]
# What may stand before the first item of a file.
PREAMBLE = re.compile(r'(?:[ \t]*(?://(?!/).*)?\n)*')

ATTRIBUTES = '#![no_std] #![allow(warnings)] '
STD = '#[macro_use] extern crate rattle_std as std; '
PRELUDE = 'use std::prelude::*; '
START = 'fn main() -> std::process::ExitCode { std::rt::start(run) }\n'
PACKAGE = """[package]
name = "{name}"
version = "0.1.0"
edition = "2021"

{kind}[dependencies]
{uses}"""
MACRO = '[lib]\nproc-macro = true\n\n'
WORKSPACE = """[workspace]
resolver = "2"
members = [{members}]

[profile.release]
opt-level = 1
overflow-checks = true
"""


def blank(text):
    """The ends of the lines of a text."""
    return '\n' * text.count('\n')


def derived(names):
    """The names in a derive that Rust has too."""
    return ', '.join(it for it in re.findall(r'\w+', names) if it != 'Drop')


def after_brackets(text, start):
    """The place after the bracket that closes the one at `start`."""
    depth = 0
    for place in range(start, len(text)):
        if text[place] in '([{':
            depth += 1
        elif text[place] in ')]}':
            depth -= 1
            if depth == 0:
                return place + 1
    raise ValueError('a bracket has no end')


def without(pattern, ends, text):
    """The text without what matches, the brackets that follow, and one of `ends` behind them."""
    kept, start = [], 0
    while found := pattern.search(text, start):
        end = after_brackets(text, found.end())
        if end < len(text) and text[end] in ends:
            end += 1
        kept += [text[start:found.start()], blank(text[found.start():end])]
        start = end
    return ''.join(kept) + text[start:]


def plain(text, place):
    """The plain Rust of the file of Rattle at a place of a crate."""
    for pattern, ends in DROPPED:
        text = without(pattern, ends, text)
    for pattern, other in CHANGED:
        text = pattern.sub(other, text)
    top = PREAMBLE.match(text).end()
    if place not in ('lib', 'main'):
        return text[:top] + PRELUDE + text[top:]
    return ATTRIBUTES + text[:top] + STD + PRELUDE + text[top:] + (START if place == 'main' else '')


def bytes_of(path):
    """What stands in a file."""
    with open(path, 'rb') as file:
        return file.read()


def text_of(path):
    """The text of a file."""
    return bytes_of(path).decode()


@functools.cache
def kit():
    """The folder of the kit."""
    guide = subprocess.run(['rt', 'doc'], capture_output=True, check=True, text=True).stdout.split()[0]
    return os.path.dirname(guide)


class Workspace:
    """A workspace in the making: its folder, the libraries that are the kit's own although something stands for them,
    and the crates and the files that are written."""

    def __init__(self, folder, of_kit=()):
        self.folder = folder
        self.of_kit = of_kit
        self.listed = {}
        for line in text_of(f'{TOP}/crates.txt').splitlines():
            name, _, uses = line.split('#')[0].partition(':')
            if name.split():
                self.listed[name.split()[0]] = uses.split()
        self.written = []
        self.paths = set()

    def put(self, path, text):
        """Writes a file of the workspace, where it doesn't stand there."""
        path = f'{self.folder}/{path}'
        self.paths.add(path)
        if os.path.exists(path) and bytes_of(path) == text.encode():
            return
        os.makedirs(os.path.dirname(path), exist_ok=True)
        with open(f'{path}.new', 'wb') as file:
            file.write(text.encode())
        os.replace(f'{path}.new', path)

    def add(self, name):
        """Writes a crate and those that it uses."""
        if name in self.written:
            return
        self.written.append(name)
        uses = self.used(name)
        for it in uses:
            self.add(it)
        lines = ''.join(f'{it} = {{ path = "../{it}" }}\n' for it in uses)
        kind = MACRO if name in MACROS else ''
        self.put(f'{name}/Cargo.toml', PACKAGE.format(name=name, kind=kind, uses=lines))
        if self.stands(name):
            self.put(f'{name}/src/lib.rs', text_of(f'{STANDING_IN}/{name}.rs'))
        else:
            self.translate(name)

    def stands(self, name):
        """Whether something stands in for a library."""
        return name not in self.of_kit and os.path.exists(f'{STANDING_IN}/{name}.rs')

    def used(self, name):
        """The crates that a crate uses."""
        if name == 'rattle_std' or name in MACROS:
            return []
        if name in self.listed:
            uses = self.listed[name]
        elif self.stands(name):
            uses = ABOVE.get(name, [])
        else:
            uses = re.findall(r'^dep (\w+)$', text_of(f'{kit()}/rlibs/{name}.rlib/format'), re.M)
        return ['rattle_std', *(it for it in uses if it != 'std')]

    def translate(self, name):
        """Writes the sources of a crate of the repository or the kit as plain Rust."""
        source = f'{TOP}/crates/{name}/src' if name in self.listed else f'{kit()}/rattle/{name}/src'
        for folder, _, files in os.walk(source):
            for file in files:
                place, kind = os.path.splitext(os.path.relpath(f'{folder}/{file}', source))
                if kind == '.rt':
                    self.put(f'{name}/src/{place}.rs', plain(text_of(f'{folder}/{file}'), place))

    def finish(self):
        """Writes what says which crates there are, and removes sources that stand there from an earlier time."""
        members = ', '.join(f'"{it}"' for it in self.written)
        self.put('Cargo.toml', WORKSPACE.format(members=members))
        for name in self.written:
            for path in glob.glob(f'{self.folder}/{name}/src/**/*.rs', recursive=True):
                if path not in self.paths:
                    os.remove(path)


def write(folder, programs):
    """Writes the workspace of some programs."""
    workspace = Workspace(folder)
    for it in programs:
        workspace.add(it)
    workspace.finish()


def cargo(made, place, words, output=None):
    """Runs `cargo` in a folder, on what stands in the workspace `made` and is built there. Answers its status."""
    words = ['cargo', words[0], '--release', '--offline', '--target-dir', f'{made}/target', *words[1:]]
    variables = {name: value for name, value in os.environ.items() if not name.startswith(NOT_FOR_CARGO)}
    return subprocess.run(words, cwd=place, env=variables, stdin=subprocess.DEVNULL, stdout=output).returncode


def dependencies(path, folder):
    """The crates of the workspace in a folder that a package of plain Rust names in its file Cargo.toml."""
    inside = os.path.relpath(folder, os.path.dirname(path))
    return re.findall(rf'^\w+ = {{ path = "{re.escape(inside)}/(\w+)" }}$', text_of(path), re.M)


def build(folder, programs, libraries=()):
    """Writes the workspace of some programs and libraries, and builds the programs. Answers the folder in which they
    stand then."""
    write(folder, [*programs, *libraries])
    made = f'{folder}/target/release'
    # So no older program is taken for what is built now; `cargo` links it anew.
    for it in programs:
        if os.path.exists(f'{made}/{it}'):
            os.remove(f'{made}/{it}')
    packages = [word for it in programs for word in ('--package', it)]
    status = cargo(folder, folder, ['build', '--quiet', *packages], sys.stderr) if programs else 0
    if status:
        raise subprocess.CalledProcessError(status, 'cargo build')
    return made


if __name__ == '__main__':
    if len(sys.argv) < 3:
        sys.exit(__doc__)
    write(os.path.abspath(sys.argv[1]), sys.argv[2:])
