#!/usr/bin/env python3
"""Writes the table of crates in docs/MAP.md and the lists of proofs that crates give out, and looks whether what pages
say of crates is so.

tools/map.py write   writes the table, from the first lines of the crates' READMEs and from crates.txt; and into each
                     README the modules of proofs that other crates cite, with the first sentence of each
tools/map.py check   writes nothing, says what isn't so, and ends with 1 where something isn't:
                     the table and the lists are those that are written;
                     each arrow of the drawing leads to a group in which a crate depends on one of where it comes from;
                     each step of the walk names the crate of the step before, and is truly above or below it;
                     each README tells truly what its crate stands on, what stands on it, its modules, and the scripts
                     that write its files;
                     crates, modules, items and files that pages cite are there;
                     no more paths lead through crates.txt than a kit can walk;
                     no line of a page is wider than 120 columns, but rows of tables and what is shown as text
"""
import glob
import os
import re
import sys

TOP = os.path.dirname(os.path.dirname(os.path.abspath(__file__)))
BEGIN, END = '<!-- Written by tools/map.py. -->\n', '<!-- To here. -->\n'
WIDTH = 120
# The files of this script bear no name of a script.
NAMELESS = {'jh_form': {'tools/forms.py'}, 'jh_boxed': {'tools/forms.py'}}
# Names that pages use for any crate.
EXAMPLES = ('jh_low', 'jh_mid')
# The most ways through crates.txt from a crate down, in all: one kit walks each of them, once for each source file.
MOST_PATHS = 200_000
CITED = re.compile(r'`((?:jh_|jahob)\w*)((?:::\w+)+|/(?:src|specs|proofs)[/\w.+]*)?`')
# Where a module of another crate's proofs is named: by an import, or in the line of a tactic.
CITING = re.compile(r'\bRattle\.(\w+)\.proofs\.([\w.]+)|\b(\w+)::proofs::([\w:]+)')
GIVEN = '## Proofs that are given out\n\n'
STEP = re.compile(r'^(\d+)\. `(\w+)`(?: \((above|below) `(\w+)`\))?: ')


def text_of(path):
    with open(path, encoding='utf-8') as file:
        return file.read()


def put(path, text):
    if text_of(path) != text:
        with open(path, 'w', encoding='utf-8') as file:
            file.write(text)


def libraries_of(text):
    """For each crate of a text like crates.txt those of the same text that it lists."""
    lines = [line.split('#')[0].partition(':') for line in text.splitlines()]
    listed = {name.strip(): uses.split() for name, _, uses in lines if name.strip()}
    return {name: [it for it in uses if it in listed] for name, uses in listed.items()}


def closure_of(libraries):
    """For each crate all that it depends on, directly or by others."""
    below = {}

    def of(name):
        if name not in below:
            below[name] = set(libraries[name]).union(*map(of, libraries[name]))
        return below[name]

    for name in libraries:
        of(name)
    return below


def paths_of(libraries):
    """How many ways lead from crates down through those that they list, in all."""
    ways = {}

    def of(name):
        if name not in ways:
            ways[name] = 1 + sum(map(of, libraries[name]))
        return ways[name]

    return sum(map(of, libraries))


def unwrapped(text):
    """The lines of a page, each with those that go on with it."""
    lines = []
    for line in text.splitlines():
        if line.startswith('  ') and lines and lines[-1]:
            lines[-1] += ' ' + line.strip()
        else:
            lines.append(line)
    return lines


def told_of(readme):
    """What a README says of its crate: what it is about, and its points by their first words; and its modules."""
    lines = unwrapped(readme)
    points = dict(line[2:].split(': ', 1) for line in lines if re.match(r'- (Contract|Group|Layer|Scripts): ', line))
    points['about'] = next((line for line in lines[1:] if line), '')
    names = readme.partition('\n## Modules\n')[2].partition('\n## ')[0]
    points['modules'] = set(re.findall(r'^- `(\w+)`:', names, flags=re.MULTILINE))
    return points


def filled(text, front):
    """A point of a list, in lines that aren't too wide."""
    lines = [front]
    for word in re.findall(r'`[^`]*`\S*|\S+', text):
        if len(lines[-1]) + 1 + len(word) > WIDTH:
            lines.append(' ')
        lines[-1] += ' ' + word
    return lines


def table(libraries, told):
    """The crates by their groups, in the order of crates.txt: what each is about, its contract, what it stands on."""
    lines = []
    for group in dict.fromkeys(told[name]['Group'].rstrip('.') for name in libraries):
        names = [name for name in libraries if told[name]['Group'].rstrip('.') == group]
        lines += [f'### {group}', '', '| Crate | What it is about |', '|---|---|']
        lines += [f'| `{name}` | {told[name]["about"]} |' for name in names] + ['']
        for name in names:
            uses = ', '.join(f'`{it}`' for it in libraries[name]) or 'no other crate'
            lines += filled(f'`{name}`: {told[name]["Contract"]} *Uses* {uses}.', '-')
        lines.append('')
    return '\n'.join(lines)


def module_of(top, crates, owner, names):
    """The module of proofs that a path names, with its crate: the longest front of it that is a file."""
    while names and names[0].startswith('of_') and names[0][3:] in crates:
        owner, names = names[0][3:], names[1:]
    for count in range(len(names), 0, -1):
        path = '/'.join(names[:count])
        if names[count - 1][:1].isupper() and os.path.exists(f'{top}/crates/{owner}/proofs/{path}.antt'):
            return owner, path
    return None


def cited_proofs(top, crates):
    """For each crate the modules of its proofs that others cite."""
    cited = {name: set() for name in crates}
    for name in crates:
        paths = [path for part in ('src', 'specs', 'proofs')
                 for path in glob.glob(f'{top}/crates/{name}/{part}/**/*.*', recursive=True)]
        named = {it for path in paths if path.endswith(('.rt', '.antt')) for it in CITING.findall(text_of(path))}
        for one, dotted, other, coloned in named:
            found = module_of(top, crates, one or other, (dotted or coloned).replace('::', '.').strip('.').split('.'))
            if found and found[0] in cited and found[0] != name:
                cited[found[0]].add(found[1])
    return cited


def first_sentence(path):
    """The first sentence of a file's first comment."""
    lines = [line for line in text_of(path).splitlines() if line and 'ritten by tools/' not in line]
    told = []
    for line in lines:
        if line.startswith('-- '):
            told.append(line[3:])
        elif told:
            break
    return re.split(r'(?<=\.) (?=[A-Z])', ' '.join(told))[0]


def given(top, name, modules):
    """The list of the proofs that a crate gives out, as it stands in its README; empty where it gives out none."""
    if not modules:
        return ''
    lines = ['Crates above cite these modules of `proofs/`; the others serve this crate alone.', '']
    for module in sorted(modules):
        lines += filled(f'`{module}`: {first_sentence(f"{top}/crates/{name}/proofs/{module}.antt")}', '-')
    return BEGIN + '\n'.join(lines) + '\n' + END


def with_given(readme, text):
    """A README with another list of the proofs that its crate gives out, which stands before how it is proved."""
    if GIVEN in readme:
        front, _, rest = readme.partition(GIVEN)
        back = rest.partition(END)[2].lstrip('\n')
    else:
        front, mark, back = readme.partition('## How')
        back = mark + back
    front = front.rstrip('\n') + '\n'
    return front + (f'\n{GIVEN}{text}' if text else '') + (f'\n{back}' if back else '')


def groups_apart(page, libraries, told, below):
    """Arrows of the drawing that no dependency goes along."""
    drawing = page.partition('```mermaid\n')[2].partition('```')[0]
    names = dict(re.findall(r'^ *(\w+)\["?([^\]"]*)"?\]', drawing, flags=re.MULTILINE))
    inside = {}
    for name in libraries:
        inside.setdefault(told[name]['Group'].rstrip('.'), set()).add(name)
    faults = [f'the drawing has no group {group}' for group in inside if group not in names.values()]
    for start, end in re.findall(r'^ *(\w+) --.*--?> (\w+)', drawing, flags=re.MULTILINE):
        low, high = inside.get(names.get(start)), inside.get(names.get(end))
        if low and high and not any(below[name] & low for name in high):
            faults.append(f'the drawing leads from {names[start]} to {names[end]}, where nothing depends on it')
    return faults


def steps_apart(page, below):
    """Steps of the walk that aren't dependencies as they say."""
    walk = unwrapped(page.partition('\n## The way of one line')[2].partition('\n## ')[0])
    lines = [line for line in walk if re.match(r'\d+\. ', line)]
    steps = [it.groups() for it in map(STEP.match, lines) if it]
    faults = [] if len(steps) == len(lines) > 1 else ['the walk has lines that are no steps']
    for number, (told, crate, way, other) in enumerate(steps, 1):
        if int(told) != number or crate not in below:
            faults.append(f'step {told} of the walk has another number or no crate')
        elif number > 1 and other != steps[number - 2][1]:
            faults.append(f'step {told} of the walk does not name the crate of the step before it')
        elif number > 1 and not (other in below[crate] if way == 'above' else crate in below.get(other, ())):
            faults.append(f'step {told} of the walk: `{crate}` is not {way} `{other}`')
    return faults


def layer_apart(name, layer, below):
    """What a README says untruly of what its crate stands on and what stands on it."""
    down, _, up = layer.partition(';')
    wrong = [it for it in re.findall(r'`(\w+)`', down) if it not in below[name]]
    wrong += [it for it in re.findall(r'`(\w+)`', up) if name not in below.get(it, ())]
    if 'nothing stands on it' in layer:
        wrong += [it for it in below if name in below[it]]
    return [f'{name}/README.md tells a layer that isn\'t so: {it}' for it in wrong]


def scripts_of(top, name):
    """The scripts that the first lines of a crate's files name."""
    paths = glob.glob(f'{top}/crates/{name}/*/**/*.*', recursive=True)
    texts = [text_of(path)[:200] for path in paths if path.endswith(('.rt', '.antt'))]
    return set(re.findall(r'ritten by (tools/\w+\.py)', '\n'.join(texts))) | NAMELESS.get(name, set())


def readme_apart(top, name, told, below):
    faults = [f'{name}/README.md has no line {it}' for it in ('Contract', 'Group', 'Layer') if it not in told]
    there = {os.path.basename(path)[:-3] for path in glob.glob(f'{top}/crates/{name}/src/*.rt')} - {'lib'}
    faults += [f'{name}/README.md tells other modules than src has: {it}' for it in sorted(there ^ told['modules'])]
    named = set(re.findall(r'`(tools/\w+\.py)`', told.get('Scripts', '')))
    faults += [f'{name}/README.md tells other scripts than files name: {it}'
               for it in sorted(named ^ scripts_of(top, name))]
    return faults + (layer_apart(name, told['Layer'], below) if 'Layer' in told else [])


class Cited:
    """What of the crates can be cited."""

    def __init__(self, top):
        self.top, self.texts = top, {}

    def text(self, crate):
        """All of a crate's code."""
        if crate not in self.texts:
            paths = glob.glob(f'{self.top}/crates/{crate}/src/**/*.rt', recursive=True)
            self.texts[crate] = '\n'.join(map(text_of, paths))
        return self.texts[crate]

    def is_there(self, crate, rest):
        root = f'{self.top}/crates/{crate}'
        if not os.path.isdir(root):
            return crate in EXAMPLES
        if rest.startswith('/'):
            return any(os.path.exists(f'{root}{rest}{end}') for end in ('', '.rt', '.antt'))
        *modules, last = rest.split('::')[1:] or ['']
        place = '/'.join([root, 'src', *modules])
        if not last or os.path.exists(f'{place}/{last}.rt'):
            return True
        if modules and os.path.isdir(f'{self.top}/crates/{modules[0]}'):
            return self.is_there(modules[0], '::'.join(['', *modules[1:], last]))
        if len(modules) == 1 and not os.path.exists(f'{place}.rt') and not modules[0][0].isupper():
            return False
        item = rf'\b(fn|struct|enum|trait|type|const|static|impl) {last}\b|^ +{last}\b|^pub use [^;]*\b{last}\b'
        return re.search(item, self.text(crate), flags=re.MULTILINE) is not None


def page_apart(path, page, cited):
    name = os.path.relpath(path, cited.top)
    faults = [f'{name}: `{crate}{rest}` isn\'t there' for crate, rest in dict.fromkeys(CITED.findall(page))
              if not cited.is_there(crate, rest)]
    prose = re.sub(r'^```.*?^```$|<!-- Written by tools/minutes.py. -->.*?<!-- To here. -->', '', page,
                   flags=re.MULTILINE | re.DOTALL)
    return faults + [f'{name}: a line has {len(line)} columns: {line[:60]}' for line in prose.splitlines()
                     if len(line) > WIDTH and not line.startswith(('|', '    '))]


def parts_of(page):
    """What stands before the table of crates, the table, and what stands behind it."""
    front, _, rest = page.partition(BEGIN)
    lines, there, back = rest.partition(END)
    if not there:
        sys.exit('docs/MAP.md has no place for the table')
    return front, lines, back


def pages_of(top):
    return [f'{top}/README.md', *sorted(glob.glob(f'{top}/docs/*.md')), *sorted(glob.glob(f'{top}/crates/*/README.md'))]


def faults_of(top):
    """All that isn't so."""
    libraries = libraries_of(text_of(f'{top}/crates.txt'))
    below = closure_of(libraries)
    told = {name: told_of(text_of(f'{top}/crates/{name}/README.md')) for name in libraries}
    faults = [it for name in libraries for it in readme_apart(top, name, told[name], below)]
    if paths_of(libraries) > MOST_PATHS:
        faults.append(f'crates.txt has {paths_of(libraries)} paths, more than {MOST_PATHS}')
    for name, modules in cited_proofs(top, libraries).items():
        readme = text_of(f'{top}/crates/{name}/README.md')
        if readme != with_given(readme, given(top, name, modules)):
            faults.append(f'{name}/README.md has another list of proofs that are given out: tools/map.py write')
    page = text_of(f'{top}/docs/MAP.md')
    if not faults:
        if parts_of(page)[1] != table(libraries, told):
            faults.append('docs/MAP.md has another table of crates: tools/map.py write')
        faults += groups_apart(page, libraries, told, below) + steps_apart(page, below)
    there = Cited(top)
    return faults + [it for path in pages_of(top) for it in page_apart(path, text_of(path), there)]


def write(top):
    libraries = libraries_of(text_of(f'{top}/crates.txt'))
    told = {name: told_of(text_of(f'{top}/crates/{name}/README.md')) for name in libraries}
    front, _, back = parts_of(text_of(f'{top}/docs/MAP.md'))
    put(f'{top}/docs/MAP.md', front + BEGIN + table(libraries, told) + END + back)
    for name, modules in cited_proofs(top, libraries).items():
        path = f'{top}/crates/{name}/README.md'
        put(path, with_given(text_of(path), given(top, name, modules)))


def main(words):
    if words == ['write']:
        return write(TOP)
    if words != ['check']:
        sys.exit(__doc__)
    faults = faults_of(TOP)
    print('\n'.join([*faults, f'map: {len(faults)} differ']))
    return 1 if faults else 0


if __name__ == '__main__':
    sys.exit(main(sys.argv[1:]))
