"""Looks for a small heap from which a run of a method breaks its contract, by runs of the program."""
import os
import random
import tempfile
from collections import namedtuple
from concurrent.futures import ThreadPoolExecutor

from . import program
from .model import Model
from .source import Source
from .wrapper import AFTER, AT, BEFORE, LEFT, TRY, meanings, stepped, wrapped

# How many heaps are tried with so many objects.
TRIES = {0: 20, 1: 200, 2: 600, 3: 1200, 4: 2000}
GUESSED = 400
# How many are made before what came of them is looked at.
PART = 64
FREE = 2
STEPS = 40
NUMBERS = 0, 1, -1, 2, 3, 4

Found = namedtuple('Found', 'heap broken tried passed')


class Heaps:
    """Heaps for a method, by chance, the same ones each time."""

    def __init__(self, model, method, equations=()):
        self.model, self.method = model, method
        self.chance = random.Random(1)
        types = [it.type for it in model.state()] + [it.of for it in model.state() if not it.fixed]
        types += [kind for kind, _ in method.params] + ([] if method.fixed else [method.of])
        self.classes = [it for it in [*model.ends, 'Object'] if it in types] or ['Object']
        self.same = [pair for pair in equations if not any('@' in name or '..' in name for name in pair)]

    def all(self):
        """First those in which names are equal that the search found equal, then by the number of objects."""
        seen = set()
        guesses = [(count, True) for count in (1, 2, 3, 4) for _ in range(GUESSED // 4)] if self.same else []
        for count, is_guess in guesses + [(count, False) for count, tries in TRIES.items() for _ in range(tries)]:
            heap = self.heap(count, is_guess)
            if heap and heap not in seen:
                seen.add(heap)
                yield heap

    def heap(self, count, is_guess):
        """The text of a heap with so many objects, or nothing where there is none that the method can be called on."""
        drawn = self.chance.choices(self.classes, k=count)
        objects, first = {it: [] for it in self.model.ends}, 1
        for name in self.classes:
            objects[name] = list(range(first, first + drawn.count(name)))
            first += drawn.count(name)
        if not self.method.fixed and not objects[self.method.of]:
            return None
        lines = [f'universe {count + FREE}']
        lines += [f'class {name} {" ".join(map(str, held))}' for name, held in objects.items() if held]
        values = self.values(objects, count, is_guess)
        lines += [f'static {it.of}.{it.name} {values[it]}' for it in self.model.state() if it.fixed]
        lines += [f'field {it.of}.{it.name} {place} {self.value(it.kind, it.type, objects, count)}'
                  for it in self.model.state() if not it.fixed for place in objects[it.of]]
        lines += [] if self.method.fixed else [f'this {self.chance.choice(objects[self.method.of])}']
        lines += [f'arg {name} {values[name]}' for _, name in self.method.params]
        return '\n'.join(lines) + '\n'

    def values(self, objects, count, is_guess):
        """What statics and parameters hold."""
        values = {it: self.value(it.kind, it.type, objects, count) for it in self.model.state() if it.fixed}
        for kind, name in self.method.params:
            sort = {'int': 'int', 'boolean': 'bool'}.get(kind, 'obj')
            values[name] = self.value(sort, kind, objects, count)
        keys = {name: name for _, name in self.method.params}
        keys.update({f'{it.of}.{it.name}': it for it in values if not isinstance(it, str)})
        for one, other in self.same if is_guess else []:
            if one in keys and (other in keys or other == 'null'):
                values[keys[one]] = '0' if other == 'null' else values[keys[other]]
        return values

    def value(self, kind, cls, objects, count):
        """What something of a sort holds."""
        if kind == 'int':
            return str(self.chance.choice(NUMBERS))
        if kind == 'bool':
            return self.chance.choice(['true', 'false'])
        if kind == 'set':
            return '{' + ' '.join(str(it) for it in range(1, count + 1) if self.chance.random() < 0.5) + '}'
        held = objects.get(cls, []) if cls not in (None, 'Object') else range(1, count + 1)
        return str(self.chance.choice([0, *held]))


class Search:
    """Runs of a method between asserts. `name` is that of the method."""

    def __init__(self, path, name, equations=()):
        with open(path, 'rb') as file:
            self.model = Model(Source(file.read()))
        self.method = self.model.method(name)
        self.name = f'{self.method.of}.{TRY}' if self.method else None
        self.equations = equations
        self.text = wrapped(self.model, self.method) if self.method else ''
        self.places = Places(self.text)
        self.meanings = meanings(self.model, self.method) if self.method else {}

    def run(self, folder, number, heap):
        """How a run from a heap ends."""
        path = f'{folder}/{number}.heap'
        with open(path, 'w', encoding='utf-8') as file:
            file.write(heap)
        run = program.Run('run', f'{folder}/wrapped.j', self.name, path)
        os.remove(path)
        return run

    def found(self):
        """The first heap that breaks the contract, or nothing, with how many were tried and passed over. Where the
        wrapper is no program, what the program says of it."""
        tried = passed = 0
        with tempfile.TemporaryDirectory(prefix='jahob-why-') as folder, ThreadPoolExecutor(os.cpu_count()) as pool:
            with open(f'{folder}/wrapped.j', 'w', encoding='utf-8', errors='surrogateescape') as file:
                file.write(self.text)
            heaps = list(Heaps(self.model, self.method, self.equations).all())
            for start in range(0, len(heaps), PART):
                part = heaps[start:start + PART]
                for heap, run in zip(part, pool.map(lambda it: self.run(folder, *it), enumerate(part))):
                    if run.status in (2, 3, 4, 15, 70):
                        return run.err
                    tried += 1
                    if (broken := self.places.broken(run, self.meanings)):
                        program.tell('')
                        return Found(heap, broken, tried, passed)
                    passed += self.places.is_passed_over(run)
                program.tell(f'{tried} of {len(heaps)} heaps tried')
        program.tell('')
        return Found(None, None, tried, passed)

    def steps(self, heap):
        """The lines of the heaps of a run of the method step by step, each with the statement before it; of a run that
        breaks off none at the end."""
        text, spans = stepped(self.model, self.method)
        source, cls = self.model.source, self.method.of
        with tempfile.TemporaryDirectory(prefix='jahob-why-') as folder:
            with open(f'{folder}/stepped.j', 'w', encoding='utf-8', errors='surrogateescape') as file:
                file.write(text)
            for step in range(1, STEPS):
                lines = heap.splitlines()
                at = next((n for n, it in enumerate(lines) if it.startswith(('field', 'this', 'arg'))), len(lines))
                lines.insert(at, f'static {cls}.{LEFT} {step}')
                with open(f'{folder}/a.heap', 'w', encoding='utf-8') as file:
                    file.write('\n'.join(lines) + '\n')
                run = program.Run('run', f'{folder}/stepped.j', f'{cls}.{self.method.name}', f'{folder}/a.heap')
                shown = [it for it in run.out.splitlines() if f'{cls}.{LEFT} ' not in it and f'{cls}.{AT} ' not in it]
                if run.status or f'{cls}.{LEFT} ' in run.out:
                    yield '', None if run.status else shown
                    return
                last = next((int(it.split()[2]) for it in run.out.splitlines() if f'{cls}.{AT} ' in it), 0)
                statement = source.text[spans[last - 1][0]:spans[last - 1][1]]
                yield ' '.join(statement.split()), [it for it in shown if not it.startswith('result')]


class Places:
    """What stands where in a wrapper."""

    def __init__(self, text):
        self.source = Source(text.encode('utf-8', 'surrogateescape'))
        model = Model(self.source)
        self.before, self.after = [], []
        for it in model.methods:
            start, end = (self.source.tokens[number].start for number in it.body)
            if it.name == BEFORE:
                self.before.append((start, end))
            elif it.name == AFTER:
                self.after.append((start, end))
            elif it.name == TRY:
                call = self.call(model, it)
                self.before.append((start, call))
                self.after.append((call, end))

    def call(self, model, it):
        """Where the wrapper calls the method: behind its first asserts and calls of what asserts the invariants."""
        number = it.body[0] + 1
        while self.source.tokens[number].mode != 'code' or self.source.tokens[number + 2].text == BEFORE:
            number += 1 if self.source.tokens[number].mode != 'code' else 6
        return self.source.tokens[number].start

    def offset(self, run):
        line, column = run.err.split()[-1].split(':')
        return self.source.offset(int(line), int(column))

    def is_passed_over(self, run):
        """Whether what the method may take for granted isn't so."""
        return run.status == 11 and any(start <= self.offset(run) < end for start, end in self.before)

    def broken(self, run, meanings):
        """What a run broke, or nothing."""
        if run.status == 10:
            return f'it dereferences null: {run.err.strip()}'
        if run.status != 11 or self.is_passed_over(run):
            return None
        place = self.offset(run)
        formula = self.source.formula(self.source.range_of('', *self.source.place(place)))
        if any(start <= place < end for start, end in self.after):
            return f'at its end {meanings.get(formula, formula)}'
        return f'what it says of itself is false: {run.err.strip()}'
