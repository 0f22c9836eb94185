#!/usr/bin/env python3
"""Writes the files that scripts write, each anew where what it says differs from what the script gives.

tools/write.py           writes them
tools/write.py --check   writes nothing, says which differ, and ends with 1 where one does

A file gets a first line that names its script, where no line does, but for those of WITHOUT_HEADS. Imports that nothing uses are taken out of proofs
and definitions, and imports alone make no difference: a file whose text is the same but for them stays as it is.
"""
import os
import shutil
import subprocess
import sys
import tempfile
sys.dont_write_bytecode = True
sys.path.insert(0, os.path.dirname(os.path.abspath(__file__)))
from settle import settled

TOP = os.path.dirname(os.path.dirname(os.path.abspath(__file__)))
# settle writes nothing itself
SCRIPTS = ('forms', 'alike', 'carry', 'compare', 'enter', 'exchange', 'makers', 'normal', 'parts', 'premises', 'premises_arms', 'reach', 'rewrite', 'sem', 'several', 'table', 'value', 'walk_code')
# On the files of this script all crates of formulas stand: they get their heads when they are next changed, and their
# crates' READMEs name the script until then.
WITHOUT_HEADS = ('forms',)


def text_of(path):
    if not os.path.exists(path):
        return None
    with open(path, encoding='utf-8') as file:
        return file.read()


def put(path, text):
    os.makedirs(os.path.dirname(path), exist_ok=True)
    with open(path, 'w', encoding='utf-8') as file:
        file.write(text)


def sources(top):
    """The paths of the files of source, definitions and proofs."""
    for crate in sorted(os.listdir(f'{top}/crates')):
        for part in ('src', 'specs', 'proofs'):
            for folder, _, names in os.walk(f'{top}/crates/{crate}/{part}'):
                for name in sorted(names):
                    yield os.path.relpath(os.path.join(folder, name), top)


def copied(to):
    """Copies what scripts read and write, and gives the text of each file."""
    texts = {}
    for path in sources(TOP):
        texts[path] = text_of(f'{TOP}/{path}')
        put(f'{to}/{path}', texts[path])
    shutil.copytree(f'{TOP}/tools', f'{to}/tools', ignore=shutil.ignore_patterns('__pycache__'))
    shutil.copy(f'{TOP}/crates.txt', to)
    return texts


def headed(text, path, script):
    """The text with a first line that names its script, where no line does yet."""
    if 'ritten by tools/' in text:
        return text
    return f"{'--' if path.endswith('.antt') else '//'} Written by tools/{script}.py.\n{text}"


def run_all(room):
    for script in SCRIPTS:
        before = {path: os.stat(f'{room}/{path}').st_mtime_ns for path in sources(room)}
        subprocess.run([sys.executable, f'tools/{script}.py', '.'], cwd=room, check=True, stdout=subprocess.DEVNULL)
        for path in list(sources(room)):
            if script not in WITHOUT_HEADS and os.stat(f'{room}/{path}').st_mtime_ns != before.get(path):
                put(f'{room}/{path}', headed(text_of(f'{room}/{path}'), path, script))


def laid_out(room, paths):
    """Takes unused imports out of these files, and lays out their crates."""
    for path in paths:
        if path.endswith('.antt'):
            put(f'{room}/{path}', settled(text_of(f'{room}/{path}')))
    for crate in sorted({path.split('/')[1] for path in paths}):
        subprocess.run(['rt', 'fmt'], cwd=f'{room}/crates/{crate}', check=True, stdout=subprocess.DEVNULL)


def without_imports(text):
    return [line for line in (text or '').rstrip().split('\n') if not line.startswith(('use ', 'ghost use '))]


def changed():
    """The files that scripts write otherwise than they stand there, with what the scripts give."""
    with tempfile.TemporaryDirectory() as room:
        texts = copied(room)
        run_all(room)
        written = [path for path in sources(room) if text_of(f'{room}/{path}') != texts.get(path)]
        laid_out(room, written)
        new = {path: text_of(f'{room}/{path}') for path in written}
    return {path: text for path, text in new.items() if without_imports(text) != without_imports(texts.get(path))}


def main():
    differing = changed()
    is_check = sys.argv[1:] == ['--check']
    for path, text in differing.items():
        print(f"{path} {'differs from what its script writes' if is_check else 'is written'}")
        if not is_check:
            put(f'{TOP}/{path}', text)
    if is_check and differing:
        sys.exit(1)
    print(f"scripts: {len(SCRIPTS)} ran, {len(differing)} files {'differ' if is_check else 'written'}")


main()
