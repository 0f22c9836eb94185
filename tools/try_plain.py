#!/usr/bin/env python3
"""Compares what stands in tools/plain for `clap` and `unicode_ident` with these libraries of the kit: what is said of
thousands of command lines, and which characters may begin or continue an identifier. Prints how many were compared and
which differ, and ends with 1 where one does. Where `cargo` or the kit is missing it says so, and ends with 0.

tools/try_plain.py --kit    prints what the kit's libraries say of the characters
"""
import itertools
import os
import random
import shutil
import subprocess
import sys

sys.dont_write_bytecode = True
sys.path.insert(0, os.path.dirname(os.path.abspath(__file__)))
import plain

MADE = f'{plain.TOP}/out/alike'
LIBRARIES = ('clap', 'unicode_ident')
USED = ('rattle_std', 'jh_words', 'jh_name', 'unicode_ident')
SOURCE = '''use rattle_std::alloc::Global;
use rattle_std::string::String as Word;
use std::io::{stdin, BufRead};

fn runs(name: &str, holds: impl Fn(char) -> bool) {
    let mut first = None;
    for code in 0..=0x110000u32 {
        match (first, char::from_u32(code).is_some_and(&holds)) {
            (None, true) => first = Some(code),
            (Some(start), false) => {
                println!("{name} {start:x} {:x}", code - 1);
                first = None;
            }
            _ => {}
        }
    }
}

fn main() {
    runs("start", unicode_ident::is_xid_start);
    runs("continue", unicode_ident::is_xid_continue);
    for line in stdin().lock().lines() {
        let line = line.expect("a line");
        let texts = line.split('\\u{1f}').skip(1);
        let words: Vec<Word> = texts.map(|it| Word::from_str(Global, it).expect("memory")).collect();
        match jh_words::read(Global, &words) {
            Ok(_) => println!("{line:?} a job"),
            Err(jh_words::WordsError::Usage(text)) => println!("{line:?} {:?}", text.text()),
            Err(jh_words::WordsError::Memory) => println!("{line:?} memory"),
        }
    }
}
'''
WORDS = ['verify', 'run', 'gen', 'help', '--', '-', '-h', '-x', '-hx', '--help', '--help=x', '--workers', '--workers=2',
         '--rounds', '--rounds=9', '--wrkers', '--leave', '--steps=', '--step', '--=x', '---', 'a', 'A.m', '', 'vrify',
         'gne', 'elp', '3', '--help=\u00e9', 'a\u00a0b']


def lines():
    """Command lines: all of up to three words, and some longer ones by chance, the same ones each time."""
    chance = random.Random(1)
    for length in range(4):
        yield from itertools.product(WORDS, repeat=length)
    for _ in range(20000):
        yield [chance.choice(WORDS[:3]), *(chance.choice(WORDS) for _ in range(chance.randrange(3, 7)))]


def said(folder, of_kit):
    """What is said over some libraries of the kit and what stands for the others."""
    workspace = plain.Workspace(folder, of_kit)
    for name in USED:
        workspace.add(name)
    uses = ''.join(f'{name} = {{ path = "../{name}" }}\n' for name in USED)
    workspace.put('alike/Cargo.toml', plain.PACKAGE.format(name='alike', kind='', uses=uses))
    workspace.put('alike/src/main.rs', SOURCE)
    workspace.written.append('alike')
    workspace.finish()
    if plain.cargo(folder, folder, ['build', '--quiet', '--package', 'alike'], sys.stderr):
        sys.exit('it could not be built')
    asked = '\n'.join('\x1f'.join(['', *line]) for line in lines()) + '\n'
    run = subprocess.run([f'{folder}/target/release/alike'], input=asked, capture_output=True, check=True, text=True)
    return run.stdout.splitlines()


def main():
    missing = [name for name in ('cargo', 'rt') if not shutil.which(name)]
    if missing:
        print(f'what stands for the kit: skipped, since `{missing[0]}` is missing')
        return
    theirs = said(f'{MADE}/kit', LIBRARIES)
    if sys.argv[1:] == ['--kit']:
        print('\n'.join(line for line in theirs if line[0] != '"'))
        return
    ours = said(f'{MADE}/own', ())
    differing = sorted(set(theirs) ^ set(ours))
    print('\n'.join(differing[:20]), end='\n' if differing else '')
    print(f'what stands for the kit: {len(theirs)} lines, {len(differing)} differ')
    sys.exit(1 if differing else 0)


main()
