"""Which entry of docs/COOKBOOK.md may help where a sequent is unproved."""
import re

WHOLE = 'Keep a truth whole'
HELPER = 'A helper method'
PARTS = 'In parts, then whole'
PREMISE = 'The premise of a note'
STORES = 'The order of stores'
RETURN = 'Return the new object'
SETS = 'Say it with sets'
NUMBERS = 'Numbers'
# What to do, by the entry of the cookbook that shows it.
ENTRIES = {
    WHOLE: '`~ ~ (F)` keeps a goal whole',
    HELPER: 'a note is paid by all later goals: make few, and say little in each',
    PARTS: '`note a: "F" from ..; note b: "~ ~ (F)" from a;` proves a step from what it needs, and keeps it small',
    PREMISE: '`from` drops the note\'s own premise: say it in a note before, and name that',
    STORES: 'change the order of the stores: cut an object out before it is put in elsewhere',
    RETURN: 'return the new object, and say `result` instead of `EX`',
    SETS: 'say it with sets alone, or at each object: `ALL x. (x : A) = ..`',
    NUMBERS: 'say what follows of the numbers as an equation or a membership, in a note before',
}
PLAIN = 'put what is open into words, and ask which hypothesis it breaks (docs/ANSWERS.md); if none, the program or ' \
    'its specification is wrong'


def hint(formula, sequent, alike):
    """The entry of the cookbook, or nothing, and what to do. `alike` counts what a method owes of the same formula."""
    entry = entry_of(formula, sequent, alike)
    return entry, ENTRIES.get(entry, PLAIN)


def entry_of(formula, sequent, alike):
    causes = ' '.join(sequent.causes)
    if sequent.kind in ('post', 'assert', 'note') and re.search(r'\bEX\b', formula):
        return RETURN
    if 'bapa too large' in causes:
        return PARTS
    if 'local too many' in causes:
        return too_many(formula, sequent, alike)
    if 'local budget' in causes:
        return PARTS
    if sequent.kind == 'note' and '-->' in formula:
        return PREMISE
    if 'tree' in formula and sequent.kind in ('inv', 'post', 'kept'):
        return STORES
    if re.search(r'\bcard\b|[<>]|\bdvd\b|[-+*] ?\d', formula):
        return NUMBERS
    if re.search(r'\{\w+\. ', formula):
        return SETS
    return None


def too_many(formula, sequent, alike):
    """The entry where there are too many instances."""
    if re.search(r'\{\w+\. ', formula):
        return SETS
    if sequent.kind in ('note', 'assert'):
        return HELPER
    return WHOLE if alike > 3 else PARTS
