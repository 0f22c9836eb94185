#!/usr/bin/env python3
"""Shows how the time and the memory of `jahob` grow: makes sources of several kinds at three sizes, runs the program on
each, and prints the times, the greatest memory, and the power by which the time grows from the second size to the third.
It is run by hand, and has no part in the gate.

tools/curves.py [--beside PROGRAM] [--limit SECONDS] [--program PROGRAM] [KIND..]

With `--beside` another program of the same command line runs beside it, and the ratio of the two at the last size is
printed. Without `--program` it is the proved program where `./jahob --prove` made it, or what `./jahob` builds.
"""
import argparse
import math
import os
import resource
import subprocess
import sys
import tempfile

TOP = os.path.dirname(os.path.dirname(os.path.abspath(__file__)))
# The stack that a host gives a program, in bytes.
STACK = 8 << 20
# Times below this many seconds say nothing of how they grow.
LEAST = 0.02


def joined(parts, sign):
    """Parts in brackets, halved down to single ones, so that none nests deep."""
    if len(parts) == 1:
        return parts[0]
    half = len(parts) // 2
    return f'({joined(parts[:half], sign)} {sign} {joined(parts[half:], sign)})'


def statics(count, letter='n', kind='int'):
    """Static fields."""
    return ' '.join(f'static {kind} {letter}{i};' for i in range(count))


def comparisons(size):
    """One `requires` with many comparisons, and a goal by regions."""
    facts = joined([f'n{i} < n{i + 1}' for i in range(size)], '&')
    return f'class A {{ {statics(size + 1)} static void m() /*: requires "{facts}" ensures "n0 < n2" */ {{ }} }}'


def same_comparisons(size):
    """One `requires` with one comparison many times."""
    facts = joined(['1 < 2'] * size, '&')
    return f'class A {{ static void m() /*: requires "{facts}" ensures "2 < 3" */ {{ }} }}'


def cyclic_chain(size):
    """A chain of definitions that ends in a cycle."""
    declared = ' '.join(f'public static specvar v{i} :: bool;' for i in range(size))
    first = ' '.join(f'vardefs "v{i} == ~ v{i + 1}";' for i in range(size - 1))
    return f'class A {{ /*: {declared} {first} vardefs "v{size - 1} == v{size - 1}"; */ }}'


def chained_definitions(size):
    """A chain of definitions, and methods of which each names one that it may change."""
    declared = ' '.join(f'public static specvar v{i} :: bool;' for i in range(size))
    first = ' '.join(f'vardefs "v{i} == v{i + 1}";' for i in range(size - 1))
    methods = ' '.join(f'static void m{i}() /*: modifies v{i} */ {{ }}' for i in range(size))
    return f'class A {{ static boolean b; /*: {declared} {first} vardefs "v{size - 1} == b"; */ {methods} }}'


def doubled_definitions(size):
    """Definitions that each use the last one twice."""
    declared = ' '.join(f'public static specvar v{i} :: bool;' for i in range(size + 1))
    defined = ' '.join(f'vardefs "v{i} == v{i + 1} & v{i + 1}";' for i in range(size))
    method = 'static void m() /*: ensures "v0" */ { }'
    return f'class A {{ static boolean b; /*: {declared} {defined} vardefs "v{size} == b"; */ {method} }}'


def written_statics(size):
    """Statics of which nine methods set a ninth each, and a tenth that calls them and names none."""
    shares = [range(k, size, 9) for k in range(9)]
    setters = ' '.join(f'static void s{k}() /*: modifies {", ".join(f"n{i}" for i in share)} */ '
                       f'{{ {" ".join(f"n{i} = 1;" for i in share)} }}' for k, share in enumerate(shares))
    calls = ' '.join(f's{k}();' for k in range(9))
    return f'class A {{ {statics(size)} {setters} static void m() {{ {calls} }} }}'


def equivalences(size):
    """Equivalences of quantified formulas, one in the other."""
    formula = '(ALL x. x = x)'
    for _ in range(size):
        formula = f'((ALL x. x : alloc) = {formula})'
    return f'class A {{ static void m() /*: ensures "{formula}" */ {{ }} }}'


def empty_classes(size):
    """Many classes without members."""
    return ' '.join(f'class C{i} {{ }}' for i in range(size))


def call_chain(size):
    """Methods in a chain of calls, with a static each."""
    methods = []
    for i in range(size):
        names = ', '.join(f'n{k}' for k in range(i, size))
        call = f'm{i + 1}();' if i + 1 < size else ''
        methods.append(f'static void m{i}() /*: modifies {names} */ {{ n{i} = 1; {call} }}')
    return f'class A {{ {statics(size)} {" ".join(methods)} }}'


def many_calls(size):
    """One method that calls another many times, which writes as many statics."""
    names = ', '.join(f'n{i}' for i in range(size))
    body = ' '.join(f'n{i} = 1;' for i in range(size))
    return (f'class A {{ {statics(size)} static void s() /*: modifies {names} */ {{ {body} }} '
            f'static void m() /*: modifies {names} */ {{ {"s(); " * size} }} }}')


def stores(size):
    """Reads and stores of one field."""
    return f'class A {{ A f; static void m(A p) /*: modifies f */ {{ A a = p; {"a = a.f; a.f = a; " * size} }} }}'


def doublings(size):
    """A number that is doubled, which regions can't take."""
    return (f'class A {{ static int n; static void m() /*: requires "n = 1" modifies n ensures "n < 2" */ '
            f'{{ {"n = n + n; " * size} }} }}')


def injective(size):
    """Objects that a quantified hypothesis is put at, and an assert that isn't proved."""
    fact = 'ALL x y. x..f = y..f --> x = y | x..f = null'
    return (f'class A {{ A f; {statics(size, "s", "A")} static void m() /*: requires "{fact}" */ '
            f'{{ /*: assert "s0 = s1"; */ }} }}')


def parameters(size):
    """A method with many parameters, and an assert that isn't proved."""
    listed = ', '.join(f'A a{i}' for i in range(size))
    return f'class A {{ static void m({listed}) {{ /*: assert "a0 = a1"; */ }} }}'


def negated_definitions(size):
    """A chain of definitions of which each negates the next."""
    declared = ' '.join(f'public static specvar v{i} :: bool;' for i in range(size))
    first = ' '.join(f'vardefs "v{i} == ~ v{i + 1}";' for i in range(size - 1))
    return (f'class A {{ static boolean b; /*: {declared} {first} vardefs "v{size - 1} == b"; */ '
            f'static void m() /*: ensures "v0" */ {{ }} }}')


def heap_names(size):
    """A run from a heap with many statics."""
    heap = 'universe 1\nclass Object 1\n' + ''.join(f'static A.n{i} 1\n' for i in range(size))
    return f'class A {{ {statics(size)} static void m() {{ }} }}', heap


def closed_pairs(size):
    """A run that evaluates which objects reach which along a list."""
    heap = (f'universe {size}\nclass A {" ".join(str(i) for i in range(1, size + 1))}\n'
            + ''.join(f'field A.f {i} {i + 1}\n' for i in range(1, size)))
    formula = 'ALL x y. rtrancl_pt (% u v. u..A.f = v) x y --> y ~= null | x = x'
    return f'class A {{ A f; static void m() {{ /*: assert "{formula}"; */ }} }}', heap


# Each kind with its three sizes.
KINDS = {
    comparisons: (1500, 3000, 6000),
    same_comparisons: (10000, 20000, 40000),
    cyclic_chain: (1500, 3000, 6000),
    negated_definitions: (1000, 2000, 4000),
    chained_definitions: (2000, 4000, 8000),
    doubled_definitions: (22, 24, 26),
    written_statics: (560, 1125, 2250),
    equivalences: (8, 10, 12),
    empty_classes: (300, 600, 1200),
    call_chain: (20, 40, 80),
    many_calls: (60, 120, 240),
    stores: (10, 20, 40),
    doublings: (5, 10, 20),
    injective: (20, 40, 80),
    parameters: (250, 500, 1000),
    heap_names: (5000, 10000, 20000),
    closed_pairs: (60, 120, 240),
}


def limited():
    """Gives a program the stack that a host gives."""
    resource.setrlimit(resource.RLIMIT_STACK, (STACK, STACK))


def call(program, words, folder, limit):
    """Runs a program: its seconds of processor time, its greatest memory in MB, and how it ended."""
    child = subprocess.Popen([*program, *words], cwd=folder, stdin=subprocess.DEVNULL, stdout=subprocess.PIPE,
                             stderr=subprocess.STDOUT, preexec_fn=limited)
    ended, text = 'limit', b''
    try:
        text, _ = child.communicate(timeout=limit)
        ended = child.returncode
    except subprocess.TimeoutExpired:
        child.kill()
        child.communicate()
    used = resource.getrusage(resource.RUSAGE_CHILDREN)
    return used, ended, text


def measured(program, kind, size, limit):
    """The seconds, the memory and the end of a program on the source of a kind and a size. Each run has a process of its
    own between, so that its memory is its own."""
    made = kind(size)
    with tempfile.TemporaryDirectory(prefix='curves-') as folder:
        source, heap = made if isinstance(made, tuple) else (made, None)
        with open(f'{folder}/a.j', 'w', encoding='utf-8') as file:
            file.write(f'{source}\n')
        words = ['verify', 'a.j']
        if heap is not None:
            with open(f'{folder}/a.heap', 'w', encoding='utf-8') as file:
                file.write(heap)
            words = ['run', 'a.j', 'A.m', 'a.heap']
        reader, writer = os.pipe()
        if not os.fork():
            try:
                used, ended, text = call(program, words, folder, limit)
                last = text.decode(errors='replace').strip().split('\n')[-1][:40]
                told = f'{used.ru_utime + used.ru_stime}\t{used.ru_maxrss / 1024}\t{ended}\t{last}'
                os.write(writer, told.encode())
            finally:
                os._exit(0)
        os.close(writer)
        with os.fdopen(reader, 'rb') as file:
            seconds, memory, ended, last = file.read().decode().split('\t')
        os.wait()
    return float(seconds), float(memory), ended, last


def power(sizes, ours):
    """By which power the time grows from the second size to the third, as a text."""
    times = [it[0] for it in ours]
    if 'limit' in [it[2] for it in ours]:
        return 'past the limit'
    if min(times[1:]) < LEAST:
        return '-'
    return f'{math.log(times[2] / times[1]) / math.log(sizes[2] / sizes[1]):.1f}'


def line(kind, program, beside, limit):
    """What there is to be said of a kind."""
    sizes = KINDS[kind]
    ours = [measured(program, kind, size, limit) for size in sizes]
    times = [it[0] for it in ours]
    told = f'{kind.__name__:20} {"/".join(map(str, sizes)):18} ' + ' '.join(f'{it:8.2f}' for it in times)
    told += f' {max(it[1] for it in ours):7.0f} MB  power {power(sizes, ours):4} status {ours[-1][2]}'
    if beside:
        theirs = measured(beside, kind, sizes[-1], limit)
        told += f'  beside {theirs[0]:.2f} s, {times[-1] / max(theirs[0], 0.001):.1f} times, status {theirs[2]}'
    return f'{told}  {ours[-1][3]}'


def main():
    """Prints a line for each kind."""
    reader = argparse.ArgumentParser()
    reader.add_argument('--beside')
    reader.add_argument('--program')
    reader.add_argument('--limit', type=float, default=60)
    reader.add_argument('kinds', nargs='*')
    asked = reader.parse_args()
    kinds = {kind.__name__: kind for kind in KINDS}
    unknown = set(asked.kinds) - set(kinds)
    if unknown:
        sys.exit(f'there is no kind {" ".join(sorted(unknown))}: {" ".join(kinds)}')
    for path in filter(None, [asked.program, asked.beside]):
        if not os.access(path, os.X_OK):
            sys.exit(f'{path} is no program')
    program = [os.path.abspath(asked.program)] if asked.program else [f'{TOP}/jahob']
    if not asked.program:
        # So the first figure has no build in it.
        subprocess.run([*program, 'verify', f'{TOP}/examples/swap.j'], stdout=subprocess.DEVNULL, check=False)
    beside = [os.path.abspath(asked.beside)] if asked.beside else None
    for name in asked.kinds or kinds:
        print(line(kinds[name], program, beside, asked.limit), flush=True)


if __name__ == '__main__':
    main()
