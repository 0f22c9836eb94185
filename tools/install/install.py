#!/usr/bin/env python3
"""Installs `jahob` and the tools beside it under a folder, or packs what would be installed.

tools/install/install.py install FOLDER [LOG]    into FOLDER/bin, FOLDER/lib and FOLDER/share
tools/install/install.py dist FOLDER [LOG]       FOLDER/jahob-COMMIT.tar.gz

The proved program is taken where it is there, and else a build without proofs; `jahob-show --version` says which, with
the commit, the line of the kit, and the last line of LOG, which is what a gate printed.
"""
import os
import shutil
import subprocess
import sys
import tarfile
import tempfile

sys.dont_write_bytecode = True
HERE = os.path.dirname(os.path.abspath(__file__))
TOP = os.path.dirname(os.path.dirname(HERE))
sys.path.insert(0, f'{TOP}/tools')
from beside import program

TOOLS = 'show', 'why', 'lsp'


def built():
    """The program as the sources stand, and whether it is proved. It is built where it isn't there."""
    kept = program.script()
    proved = kept.built('proved') if kept.has_proved() else None
    if not proved and not kept.built('unproved'):
        subprocess.run([f'{TOP}/jahob', 'verify', f'{TOP}/examples/swap.j'], stdout=subprocess.DEVNULL, check=True)
    return proved or kept.built('unproved'), bool(proved)


def kit(proved):
    """The line of the kit: of the one by which the program was proved, or of the one that is there."""
    if proved:
        with open(f'{TOP}/out/kit', encoding='utf-8') as file:
            return file.read().strip()
    if shutil.which('rt'):
        return subprocess.run(['rt', 'version'], capture_output=True, text=True).stdout.strip()
    return 'no kit was there'


def about(proved, log):
    """What is installed, in lines."""
    last = 'no log was given'
    if log:
        with open(log, encoding='utf-8', errors='replace') as file:
            last = (file.read().strip().splitlines() or ['nothing'])[-1]
    lines = [program.PROVED if proved else program.UNPROVED, program.commit(), f'kit: {kit(proved)}', f'gate: {last}']
    return '\n'.join(lines) + '\n'


def copy(source, target):
    """Copies a file, or all files of a folder but what Python made."""
    os.makedirs(os.path.dirname(target), exist_ok=True)
    if os.path.isdir(source):
        ignored = shutil.ignore_patterns('__pycache__', 'tests', '*.pyc')
        shutil.copytree(source, target, dirs_exist_ok=True, ignore=ignored)
    else:
        shutil.copy(source, target)


def link(target, path):
    """Makes a link, in the place of what is there."""
    os.makedirs(os.path.dirname(path), exist_ok=True)
    if os.path.lexists(path):
        os.remove(path)
    os.symlink(target, path)


def install(folder, log):
    """Installs all under a folder."""
    path, proved = built()
    library, share = f'{folder}/lib/jahob', f'{folder}/share'
    copy(path, f'{library}/jahob_main')
    os.chmod(f'{library}/jahob_main', 0o755)
    copy(f'{TOP}/tools/beside', f'{library}/tools/beside')
    with open(f'{library}/about', 'w', encoding='utf-8') as file:
        file.write(about(proved, log))
    link('../lib/jahob/jahob_main', f'{folder}/bin/jahob')
    for name in TOOLS:
        link('../lib/jahob/tools/beside/front.py', f'{folder}/bin/jahob-{name}')
        link('jahob.1', f'{share}/man/man1/jahob-{name}.1')
        link('jahob', f'{share}/bash-completion/completions/jahob-{name}')
    copy(f'{HERE}/jahob.1', f'{share}/man/man1/jahob.1')
    copy(f'{HERE}/jahob.bash', f'{share}/bash-completion/completions/jahob')
    copy(f'{HERE}/_jahob', f'{share}/zsh/site-functions/_jahob')
    copy(f'{TOP}/docs', f'{share}/doc/jahob')
    copy(f'{TOP}/README.md', f'{share}/doc/jahob/README.md')
    copy(f'{TOP}/examples', f'{share}/doc/jahob/examples')


def dist(folder, log):
    """Packs what would be installed, and answers the path."""
    name = f'jahob-{program.commit().split()[1]}'
    path = f'{folder}/{name}.tar.gz'
    with tempfile.TemporaryDirectory(prefix='dist-') as place:
        install(f'{place}/{name}', log)
        shutil.move(f'{place}/{name}/lib/jahob/about', f'{place}/{name}/ABOUT')
        link('../../ABOUT', f'{place}/{name}/lib/jahob/about')
        os.makedirs(folder, exist_ok=True)
        with tarfile.open(path, 'w:gz') as archive:
            archive.add(f'{place}/{name}', name)
    return path


def main():
    if len(sys.argv) not in (3, 4) or sys.argv[1] not in ('install', 'dist'):
        sys.exit(__doc__)
    folder, log = os.path.abspath(sys.argv[2]), (sys.argv[3:] or [''])[0]
    if sys.argv[1] == 'install':
        install(folder, log)
        print(f'installed under {folder}')
    else:
        print(dist(folder, log))


main()
