#!/usr/bin/env python3
"""Writes the rote files of the formula crates, one line for each constructor, from one table."""

# type: (rust type, tree type, function to trees, [(variant, tree constructor, [argument kinds])])
# argument kinds: a lower-case letter for plain data, an upper-case one for a part:
#   u number of a binder, n name, z whole number, k mark,
#   T I S F V P a part of that type behind a Box, T. I. S. F. P. a part without Box, L a row of fields
#   P+ a part under one more binder
TYPES = {
    'T': ('Term', 'TermTree', 'term', [
        ('Bound', 'bound', ['u']),
        ('Free', 'free_object', ['n']),
        ('Null', 'null', []),
        ('Read', 'read_object', ['F', 'T']),
    ]),
    'I': ('IntTerm', 'IntTree', 'int', [
        ('Const', 'const', ['z']),
        ('Free', 'free_number', ['n']),
        ('Read', 'read_number', ['F', 'T']),
        ('Add', 'add', ['I', 'I']),
        ('Sub', 'sub', ['I', 'I']),
        ('Neg', 'neg', ['I']),
        ('Scale', 'scale', ['z', 'I']),
        ('Card', 'card', ['S']),
    ]),
    'S': ('SetTerm', 'SetTree', 'set', [
        ('Free', 'free_set', ['n']),
        ('Read', 'read_set', ['F', 'T']),
        ('Empty', 'empty', []),
        ('Univ', 'univ', []),
        ('Single', 'single', ['T']),
        ('Union', 'union', ['S', 'S']),
        ('Inter', 'inter', ['S', 'S']),
        ('Diff', 'diff', ['S', 'S']),
        ('Compl', 'compl', ['S']),
        ('Compr', 'compr', ['P+']),
    ]),
    'F': ('FieldTerm', 'FieldTree', 'field', [
        ('Free', 'free_field', ['n']),
        ('Update', 'update', ['F', 'T', 'V']),
    ]),
    'V': ('Value', 'ValueTree', 'value', [
        ('Obj', 'of_object', ['T.']),
        ('Int', 'of_number', ['I.']),
        ('Bool', 'of_truth', ['P.']),
        ('Set', 'of_set', ['S.']),
        ('Field', 'of_field', ['F.']),
    ]),
    'P': ('Formula', 'FormulaTree', 'formula', [
        ('True', 'true_formula', []),
        ('False', 'false_formula', []),
        ('Free', 'free_truth', ['n']),
        ('Read', 'read_truth', ['F', 'T']),
        ('Not', 'negation', ['P']),
        ('And', 'and', ['P', 'P']),
        ('Or', 'or', ['P', 'P']),
        ('Implies', 'implies', ['P', 'P']),
        ('Iff', 'iff', ['P', 'P']),
        ('All', 'all', ['P+']),
        ('Ex', 'ex', ['P+']),
        ('EqObj', 'eq_object', ['T.', 'T.']),
        ('EqInt', 'eq_number', ['I.', 'I.']),
        ('EqSet', 'eq_set', ['S.', 'S.']),
        ('Less', 'less', ['I.', 'I.']),
        ('LessEq', 'less_equal', ['I.', 'I.']),
        ('Divides', 'divides', ['z', 'I.']),
        ('Member', 'member', ['T.', 'S.']),
        ('Subset', 'subset', ['S.', 'S.']),
        ('Reach', 'reach', ['L', 'T.', 'T.']),
        ('Tree', 'tree', ['L']),
        ('Mark', 'mark', ['k', 'P']),
    ]),
}
ORDER = 'TISFVP'
LETTER = {c: {'T': 'term', 'I': 'int', 'S': 'set', 'F': 'field', 'V': 'value', 'P': 'formula'}[c] for c in 'TISFVP'}  # modules of the Rust variants
ANTT = {'u': 'ℕ', 'n': 'Name', 'z': 'ℤ', 'k': 'Mark'}


def core(kind):
    return kind[0]


def is_part(kind):
    return core(kind).isupper()


def boxed(kind):
    return core(kind) in TYPES and not kind.endswith('.')


def names(kinds):
    """The plain names of a constructor's arguments: a, b, c for parts, k, n, x for data, fs for rows."""
    out, parts = [], iter('abcd')
    data = {'u': 'k', 'n': 'x', 'z': 'z', 'k': 'k'}
    for kind in kinds:
        if core(kind) == 'L':
            out.append('fs')
        elif is_part(kind):
            out.append(next(parts))
        else:
            out.append(data[core(kind)])
    return out


def tree_of(kind):
    return {'L': 'FieldTrees'}.get(core(kind)) or (TYPES[core(kind)][1] if is_part(kind) else ANTT[core(kind)])


def bare_pattern(code, variant, kinds):
    """The pattern of the program's value, with pointers and shapes."""
    primed = any(boxed(k) or core(k) == 'L' for k in kinds)
    words, pointers = [], iter('ijl')
    for kind, name in zip(kinds, names(kinds)):
        if core(kind) == 'L':
            words += ['shape', name]
        elif boxed(kind):
            words += [next(pointers), name]
        else:
            words.append(name)
    head = f"{LETTER[code]}.{variant}" + ("'" if primed else '')
    return (head, words)


def apply(head, words):
    return head if not words else f"({head} {' '.join(words)})"


def call(head, words):
    return head if not words else f"{head} {' '.join(words)}"


# ---------------------------------------------------------------- which shape a formula has

# the kinds of formulas by their parts, as jh_tree lets them go
KINDS = {
    'Connective': 'True False Free Read Not And Or Implies Iff All Ex',
    'Other': 'Mark EqObj Member Reach Tree',
    'Pair': 'EqInt Less LessEq Divides EqSet Subset',
}


def any_formula(variant, kinds):
    """The pattern of a formula of this variant, whatever its parts."""
    head, words = bare_pattern('P', variant, kinds)
    return apply('formula.' + head.split('.')[1], ['_'] * len(words))


# the formulas that are mapped in one function
SHAPES = {
    'is_read': 'Read', 'is_not': 'Not', 'is_connective': 'And Or Implies Iff', 'is_binder': 'All Ex', 'is_eq_obj': 'EqObj',
    'compares_numbers': 'EqInt Less LessEq', 'compares_sets': 'EqSet Subset', 'is_divides': 'Divides', 'is_member': 'Member',
    'is_reach': 'Reach', 'is_tree': 'Tree', 'is_mark': 'Mark',
}


def shapes_file():
    arguments = {variant: kinds for variant, _, kinds in TYPES['P'][3]}
    out = ["""-- Which connective or atom a formula is. Each function that maps one of them, or a few, asks for it.
use Rattle.std.specs.Prelude.{Bool, true, false}
use Rattle.jh_form.specs.declared.form.Formula.{Formula}
use Rattle.jh_form.specs.declared.form.Formula.TheVariants as formula
"""]
    for name, variants in SHAPES.items():
        out.append(f"\nabbrev pub {name} : Formula → Bool\n")
        for variant in variants.split():
            out.append(f"{name} {any_formula(variant, arguments[variant])} = true\n")
        out.append(f"{name} _ = false\n")
    return ''.join(out)


def kinds_file():
    arguments = {variant: kinds for variant, _, kinds in TYPES['P'][3]}
    out = ["""-- What the parts of a formula are.
use Rattle.jh_form.specs.declared.form.Formula.{Formula}
use Rattle.jh_form.specs.declared.form.Formula.TheVariants as formula
use Rattle.jh_form.specs.declared.form.Kind.{Kind}
use Rattle.jh_form.specs.declared.form.Kind.TheVariants as kind

abbrev pub kind_of : Formula → Kind
"""]
    for kind, variants in KINDS.items():
        for variant in variants.split():
            out.append(f"kind_of {any_formula(variant, arguments[variant])} = kind.{kind}\n")
    return ''.join(out)


# ---------------------------------------------------------------- specs/Tree.antt

def tree_file():
    out = ["""-- The trees of formulas: the program's values without memory. Two formulas are the same where their
-- trees are, labels included. A bound variable is the number of binders between it and its own.
use Rattle.std.specs.Prelude.{ℕ, ℤ}
use Rattle.jh_name.specs.declared.naming.Name.{Name}
use Rattle.jh_form.specs.declared.mark.Mark.{Mark}

mutual"""]
    for code in ORDER:
        rust, tree, fn, variants = TYPES[code]
        out.append(f"  pub data {tree} : Type 0 where")
        for _, ctor, kinds in variants:
            sig = ' → '.join([tree_of(k) for k in kinds] + [tree])
            out.append(f"    {ctor} : {sig}")
        out.append('')
    out.append("  pub data FieldTrees : Type 0 where")
    out.append("    none : FieldTrees")
    out.append("    more : FieldTree → FieldTrees → FieldTrees")
    return '\n'.join(out) + '\n'


def to_tree(kind, name):
    c = core(kind)
    if c == 'L':
        return f"(fields_tree {name})"
    if is_part(kind):
        return f"({TYPES[c][2]}_tree {name})"
    return name


def variant_modules(prefix='Rattle.jh_form.specs.declared.form'):
    return '\n'.join(f"use {prefix}.{TYPES[c][0]}.TheVariants as {LETTER[c]}" for c in ORDER)


def bare_file():
    out = [f"""-- The tree of each value of the program.
use Rattle.std.specs.Prelude.{{List, [], ◌∷◌}}
{chr(10).join(f"use Rattle.jh_form.specs.declared.form.{TYPES[c][0]}.{{{TYPES[c][0]}}}" for c in ORDER)}
use Rattle.jh_form.specs.declared.form.Formula.{{Row_of-FieldTerm, end_of-FieldTerm, more_of-FieldTerm}}
{variant_modules()}
use Rattle.jh_form.specs.Tree.{{{', '.join(TYPES[c][1] for c in ORDER)}, FieldTrees}}
use Rattle.jh_form.specs.Tree as tree

unfoldable mutual"""]
    for code in ORDER:
        rust, tree, fn, variants = TYPES[code]
        out.append(f"  pub {fn}_tree : {rust} → {tree}")
        for variant, ctor, kinds in variants:
            head, words = bare_pattern(code, variant, kinds)
            right = call(f"tree.{ctor}", [to_tree(k, n) for k, n in zip(kinds, names(kinds))])
            out.append(f"  {fn}_tree {apply(head, words)} = {right}")
        out.append('')
    out.append("""  pub fields_tree : {n : _} → Row_of-FieldTerm n → FieldTrees
  fields_tree end_of-FieldTerm = tree.none
  fields_tree (more_of-FieldTerm f fs) = tree.more (field_tree f) (fields_tree fs)

-- the trees of a list of fields
abbrev pub list_tree : List FieldTerm → FieldTrees
list_tree [] = tree.none
list_tree (f ∷ fs) = tree.more (field_tree f) (list_tree fs)
""")
    return '\n'.join(out)



# ---------------------------------------------------------------- the equations of the tree functions

def arg_type(kind):
    c = core(kind)
    return TYPES[c][0] if is_part(kind) else ANTT[c]


def steps_file():
    out = [f"""-- The tree of each variant, an equation for each.
use Rattle.std.proofs.Common.{{◌≡◌, refl, ap, ◌∙◌, List, [], ◌∷◌, ℕ, ℤ}}
use Rattle.jh_name.specs.declared.naming.Name.{{Name}}
use Rattle.jh_form.specs.declared.mark.Mark.{{Mark}}
{chr(10).join(f"use Rattle.jh_form.specs.declared.form.{TYPES[c][0]}.{{{TYPES[c][0]}}}" for c in ORDER)}
use Rattle.jh_form.specs.declared.form.Formula.{{Row_of-FieldTerm, end_of-FieldTerm, more_of-FieldTerm, items-the_row-FieldTerm, items_hidden-the_row-FieldTerm-0}}
use Rattle.jh_form.specs.declared.form.FieldTerm.TheBlock.{{hidden-the_row-FieldTerm-0}}
{variant_modules()}
use Rattle.jh_form.specs.Bare.{{{', '.join(TYPES[c][2] + '_tree' for c in ORDER)}, fields_tree, list_tree}}
use Rattle.jh_form.specs.Tree as tree

-- the trees of a row are those of the list of its items
pub fields_tree-items : {{n : _}} (fs : Row_of-FieldTerm n) → fields_tree fs ≡ list_tree (items-the_row-FieldTerm n fs)
unfolding fields_tree
fields_tree-items end_of-FieldTerm = refl
fields_tree-items (more_of-FieldTerm f fs) = ap (tree.more (field_tree f)) (fields_tree-items fs)

pub fields_tree-hidden : (fs : List FieldTerm) → fields_tree (hidden-the_row-FieldTerm-0 fs) ≡ list_tree fs
fields_tree-hidden fs =
    fields_tree-items (hidden-the_row-FieldTerm-0 fs) ∙ ap list_tree (items_hidden-the_row-FieldTerm-0 fs)
"""]
    rules = []
    for code in ORDER:
        rust, tree, fn, variants = TYPES[code]
        for variant, ctor, kinds in variants:
            name = f"{fn}_tree-{variant}"
            rules.append(name)
            if any(core(k) == 'L' for k in kinds):
                ns = names(kinds)
                sig = ' '.join(f"({n} : {'List FieldTerm' if core(k) == 'L' else arg_type(k)})" for k, n in zip(kinds, ns))
                right = call(f"tree.{ctor}", [f"(list_tree {n})" if core(k) == 'L' else to_tree(k, n) for k, n in zip(kinds, ns)])
                out.append(f"pub {name} : {sig} → {fn}_tree {apply(f'{LETTER[code]}.{variant}', ns)} ≡ {right}")
                out.append(f"unfolding {fn}_tree")
                wrapped = call(f"tree.{ctor}", ['fs' if core(k) == 'L' else to_tree(k, n) for k, n in zip(kinds, ns)])
                out.append(f"{call(name, ns)} = ap (λ fs. {wrapped}) (fields_tree-hidden fs)")
                out.append('')
                continue
            head, words = bare_pattern(code, variant, kinds)
            types = iter(kinds)
            sig = []
            for w in words:
                sig.append(f"({w} : _)" if w in ('i', 'j', 'l') else f"({w} : {arg_type(next(types))})")
            right = call(f"tree.{ctor}", [to_tree(k, n) for k, n in zip(kinds, names(kinds))])
            arrow = (' '.join(sig) + ' → ') if sig else ''
            out.append(f"pub {name} : {arrow}{fn}_tree {apply(head, words)} ≡ {right}")
            out.append(f"unfolding {fn}_tree")
            out.append(f"{call(name, words)} = refl")
            out.append('')
    out.append(f"pub ruleset tree_steps = ({', '.join(rules)})")
    return '\n'.join(out) + '\n'


# ---------------------------------------------------------------- functions over the trees, by cases

def family(prefix, result, case, args, empty, more, fields_name=None, extra=''):
    """One function for each tree type: prefix(code) its name, case(code, ctor, kinds, names) its right side."""
    out = ["unfoldable mutual"]
    for code in ORDER:
        rust, tree, fn, variants = TYPES[code]
        out.append(f"  pub {prefix(code)} : {tree} → {result(code)}")
        for variant, ctor, kinds in variants:
            ns = names(kinds)
            out.append(f"  {prefix(code)} {apply('t.' + ctor, ns)}{args} = {case(code, ctor, kinds, ns)}")
        out.append('')
    name = prefix('L')
    out.append(f"  pub {name} : FieldTrees → {result('L')}")
    out.append(f"  {name} t.none{args} = {empty}")
    out.append(f"  {name} (t.more f fs){args} = {more}")
    return '\n'.join(out) + '\n'


TREES = 'TermTree, IntTree, SetTree, FieldTree, ValueTree, FormulaTree, FieldTrees'


def fn_of(code):
    return 'fields' if code == 'L' else TYPES[code][2]


def tree_type(code):
    return 'FieldTrees' if code == 'L' else TYPES[code][1]


LEAF = {'free_object': 'object_at', 'free_number': 'number_at', 'free_set': 'set_at', 'free_field': 'field_at', 'free_truth': 'truth_at'}


def mapped_case(code, ctor, kinds, ns):
    if ctor in LEAF:
        return f"l.{LEAF[ctor]} x d"
    if ctor == 'bound':
        return "l.bound_at k d"
    words = []
    for kind, n in zip(kinds, ns):
        if not is_part(kind):
            words.append(n)
        else:
            words.append(f"(mapped_{fn_of(core(kind))} {n} l {'(d + 1)' if kind.endswith('+') else 'd'})")
    return call(f"t.{ctor}", words)


def mapped_file():
    return f"""-- A tree with each leaf exchanged for what a map of leaves gives for it.
use Rattle.std.specs.Prelude.{{ℕ, ◌+◌}}
use Rattle.jh_name.specs.declared.naming.Name.{{Name}}
use Rattle.jh_form.specs.Tree.{{{TREES}}}
use Rattle.jh_form.specs.Tree as t

-- What stands for each leaf, at the number of binders that were passed on the way to it.
pub record LeafMap : Type 0 where
  pub object_at : Name → ℕ → TermTree
  pub number_at : Name → ℕ → IntTree
  pub truth_at : Name → ℕ → FormulaTree
  pub set_at : Name → ℕ → SetTree
  pub field_at : Name → ℕ → FieldTree
  pub bound_at : ℕ → ℕ → TermTree

""" + family(lambda c: f"mapped_{fn_of(c)}", lambda c: f"LeafMap → ℕ → {tree_type(c)}", mapped_case, ' l d',
             't.none', 't.more (mapped_field f l d) (mapped_fields fs l d)') + """
-- the leaves that change nothing
abbrev pub unchanged : LeafMap
unchanged = record {
  object_at = λ x d. t.free_object x;
  number_at = λ x d. t.free_number x;
  truth_at = λ x d. t.free_truth x;
  set_at = λ x d. t.free_set x;
  field_at = λ x d. t.free_field x;
  bound_at = λ k d. t.bound k;
}
"""


def size_case(code, ctor, kinds, ns):
    parts = [f"{fn_of(core(k))}_size {n}" for k, n in zip(kinds, ns) if is_part(k)]
    if code == 'V':
        return parts[0]
    return ' + '.join(['1'] + parts)


def depth_case(code, ctor, kinds, ns):
    parts = [f"{fn_of(core(k))}_depth {n}" for k, n in zip(kinds, ns) if is_part(k)]
    if code == 'V':
        return parts[0]
    if not parts:
        return '1'
    right = parts[-1]
    for p in reversed(parts[:-1]):
        right = f"max ({p}) ({right})" if right == parts[-1] else f"max ({p}) ({right})"
    return f"1 + {right}" if len(parts) > 1 else f"1 + {right}"


def sizes_file():
    return f"""-- The number of nodes of a tree, and how deep it nests. A value is no node of its own.
use Rattle.std.specs.Prelude.{{ℕ, ◌+◌, max}}
use Rattle.jh_form.specs.Tree.{{{TREES}}}
use Rattle.jh_form.specs.Tree as t

""" + family(lambda c: f"{fn_of(c)}_size", lambda c: 'ℕ', size_case, '', '0', 'field_size f + fields_size fs') + \
"\n-- the nodes on the longest way down\n" + \
        family(lambda c: f"{fn_of(c)}_depth", lambda c: 'ℕ', depth_case, '', '0', 'max (field_depth f) (fields_depth fs)')


def parts_file():
    out = [f"""-- The parts of a tree.
use Rattle.std.specs.Prelude.{{ℤ}}
use Rattle.jh_form.specs.declared.mark.Mark.{{Mark}}
use Rattle.jh_form.specs.Tree.{{{TREES}}}
use Rattle.jh_form.specs.Tree as t

-- a field of a list
pub data Among : FieldTree → FieldTrees → Type 0 where
  first : (f : FieldTree) (fs : FieldTrees) → Among f (t.more f fs)
  later : (f g : FieldTree) (fs : FieldTrees) → Among f fs → Among f (t.more g fs)

-- a part that stands directly under a node
pub data IsChild : ValueTree → ValueTree → Type 0 where"""]
    lines, proofs = [], []
    wrap = {'T': 'of_object', 'I': 'of_number', 'S': 'of_set', 'F': 'of_field', 'P': 'of_truth'}
    for code in ORDER:
        if code == 'V':
            continue
        for variant, ctor, kinds in TYPES[code][3]:
            ns = names(kinds)
            for kind, n in zip(kinds, ns):
                if not is_part(kind):
                    continue
                c = core(kind)
                sig = ' '.join(f"({m} : {tree_of(k)})" for k, m in zip(kinds, ns))
                whole = f"(t.{wrap[code]} {apply('t.' + ctor, ns)})"
                suffix = '' if sum(1 for k in kinds if is_part(k)) == 1 else f"-{n}"
                if c == 'L':
                    name = f"{ctor}-field"
                    lines.append(f"  {name} : (f : FieldTree) {sig} → Among f fs → IsChild (t.of_field f) {whole}")
                    proofs.append((name, ['f'] + ns + ['h']))
                else:
                    name = f"{ctor}{suffix}"
                    part = n if c == 'V' else f"(t.{wrap[c]} {n})"
                    lines.append(f"  {name} : {sig} → IsChild {part} {whole}")
                    proofs.append((name, ns))
    parts_file.proofs = proofs
    return '\n'.join(out + lines) + """

-- a part of a tree, at any depth
pub data IsPart : ValueTree → ValueTree → Type 0 where
  child : (a b : ValueTree) → IsChild a b → IsPart a b
  within : (a b c : ValueTree) → IsPart a b → IsChild b c → IsPart a c
"""


# ---------------------------------------------------------------- lemmas, one line for each constructor

def family_steps(title, name, uses, functions, args_sig, args, cases):
    out = [title]
    rules = []
    return out, rules


def equations(header, families, ruleset):
    """families: list of (prefix, case, binders of the further arguments, their names, empty, more)"""
    out = [header]
    rules = []
    for prefix, case, binders, args, empty, more in families:
        for code in ORDER + 'L':
            f = prefix(code)
            if code == 'L':
                rows = [('none', [], [], empty), ('more', None, ['f', 'fs'], more)]
                for ctor, _, ns, right in rows:
                    lemma = f"{f}-{ctor}"
                    rules.append(lemma)
                    sig = '(f : FieldTree) (fs : FieldTrees) ' if ns else ''
                    arrow = (sig + binders).strip()
                    out.append(f"pub {lemma} : {arrow + ' → ' if arrow else ''}{f} {apply('t.' + ctor, ns)}{args} ≡ {right}")
                    out.append(f"unfolding {f}")
                    out.append(f"{call(lemma, ns)}{args} = refl\n")
                continue
            for variant, ctor, kinds in TYPES[code][3]:
                ns = names(kinds)
                lemma = f"{f}-{ctor}"
                rules.append(lemma)
                sig = ' '.join(f"({n} : {tree_of(k)})" for k, n in zip(kinds, ns))
                arrow = (sig + ' ' + binders).strip()
                out.append(f"pub {lemma} : {arrow + ' → ' if arrow else ''}{f} {apply('t.' + ctor, ns)}{args} ≡ {case(code, ctor, kinds, ns)}")
                out.append(f"unfolding {f}")
                out.append(f"{call(lemma, ns)}{args} = refl\n")
    out.append(f"pub ruleset {ruleset} = ({', '.join(rules)})")
    return '\n'.join(out) + '\n'


def map_steps_file():
    return equations(f"""-- The mapped tree at each constructor.
use Rattle.std.proofs.Common.{{◌≡◌, refl, ℕ, ◌+◌, ℤ}}
use Rattle.jh_name.specs.declared.naming.Name.{{Name}}
use Rattle.jh_form.specs.declared.mark.Mark.{{Mark}}
use Rattle.jh_form.specs.Tree.{{{TREES}}}
use Rattle.jh_form.specs.Tree as t
use Rattle.jh_boxed.specs.Mapped.{{LeafMap, {', '.join('mapped_' + fn_of(c) for c in ORDER + 'L')}}}
""", [(lambda c: f"mapped_{fn_of(c)}", mapped_case, '(l : LeafMap) (d : ℕ)', ' l d', 't.none', 't.more (mapped_field f l d) (mapped_fields fs l d)')], 'map_steps')


def size_steps_file():
    return equations(f"""-- The size and the depth at each constructor.
use Rattle.std.proofs.Common.{{◌≡◌, refl, ℕ, ◌+◌, max, ℤ}}
use Rattle.jh_name.specs.declared.naming.Name.{{Name}}
use Rattle.jh_form.specs.declared.mark.Mark.{{Mark}}
use Rattle.jh_form.specs.Tree.{{{TREES}}}
use Rattle.jh_form.specs.Tree as t
use Rattle.jh_boxed.specs.Sizes.{{{', '.join(fn_of(c) + '_size' for c in ORDER + 'L')}, {', '.join(fn_of(c) + '_depth' for c in ORDER + 'L')}}}
""", [(lambda c: f"{fn_of(c)}_size", size_case, '', '', '0', 'field_size f + fields_size fs'),
      (lambda c: f"{fn_of(c)}_depth", depth_case, '', '', '0', 'max (field_depth f) (fields_depth fs)')], 'size_steps')


def unchanged_file():
    out = [f"""-- Mapping with the leaves that change nothing gives the same tree.
use Rattle.std.proofs.Common.{{◌≡◌, refl, ℕ, ◌+◌}}
use Rattle.jh_form.specs.Tree.{{{TREES}}}
use Rattle.jh_form.specs.Tree as t
use Rattle.jh_boxed.specs.Mapped.{{unchanged, {', '.join('mapped_' + fn_of(c) for c in ORDER + 'L')}}}

mutual
  unfolding {' '.join('mapped_' + fn_of(c) for c in ORDER + 'L')}"""]
    rules = []
    for code in ORDER:
        f = f"mapped_{fn_of(code)}"
        rules.append(f"{f}-unchanged")
        out.append(f"  pub {f}-unchanged : (a : {tree_type(code)}) (d : ℕ) → {f} a unchanged d ≡ a")
        for variant, ctor, kinds in TYPES[code][3]:
            ns = names(kinds)
            if not any(is_part(k) for k in kinds):
                right = 'refl'
            else:
                words = [n if not is_part(k) else f"(mapped_{fn_of(core(k))}-unchanged {n} {'(d + 1)' if k.endswith('+') else 'd'} i)" for k, n in zip(kinds, ns)]
                right = f"λ i. {call('t.' + ctor, words)}"
            out.append(f"  {f}-unchanged {apply('t.' + ctor, ns)} d = {right}")
        out.append('')
    out.append(f"""  pub mapped_fields-unchanged : (fs : FieldTrees) (d : ℕ) → mapped_fields fs unchanged d ≡ fs
  mapped_fields-unchanged t.none d = refl
  mapped_fields-unchanged (t.more f fs) d = λ i. t.more (mapped_field-unchanged f d i) (mapped_fields-unchanged fs d i)

pub ruleset identity_steps = ({', '.join(rules + ['mapped_fields-unchanged'])})
""")
    return '\n'.join(out)


# the right side of the meaning: {a} the value of part a, {a:x} under a binder whose object is x, {last} the greatest object
MEANING = {
    'null': '0', 'read_object': '({a}).objects ({b})',
    'const': None, 'read_number': '({a}).numbers ({b})', 'add': '{a} +ℤ {b}', 'sub': '{a} -ℤ {b}', 'neg': 'neg_ℤ ({a})',
    'scale': 'z *ℤ {a}', 'card': 'pos (count_below (suc {last}) ({a}))',
    'read_set': '({a}).sets ({b})', 'empty': None, 'univ': None, 'single': 'λ x. x == {a}',
    'union': 'λ x. {a} x || {b} x', 'inter': 'λ x. {a} x && {b} x', 'diff': 'λ x. {a} x && not ({b} x)', 'compl': 'λ x. not ({a} x)',
    'compr': 'λ x. {a+}',
    'update': 'updated ({a}) ({b}) ({c})',
    'of_object': 'an_object ({a})', 'of_number': 'a_number ({a})', 'of_truth': 'a_truth ({a})', 'of_set': 'a_set ({a})', 'of_field': 'a_field ({a})',
    'true_formula': None, 'false_formula': None, 'read_truth': '({a}).truths ({b})', 'negation': 'not ({a})',
    'and': '{a} && {b}', 'or': '{a} || {b}', 'implies': 'not ({a}) || {b}', 'iff': 'agree ({a}) ({b})',
    'all': 'every {last} (λ x. {a+})', 'ex': 'some {last} (λ x. {a+})',
    'eq_object': '{a} == {b}', 'eq_number': 'int_eq ({a}) ({b})', 'eq_set': 'every {last} (λ x. agree ({a} x) ({b} x))',
    'less': 'int_lt ({a}) ({b})', 'less_equal': 'int_le ({a}) ({b})', 'divides': 'divides_number z ({a})',
    'member': '{b} ({a})', 'subset': 'every {last} (λ x. not ({a} x) || {b} x)',
    'reach': 'reaches {last} ({fs}) ({a}) ({b})', 'tree': 'is_forest {last} ({fs})', 'mark': '{a}',
}
VALUE = {'T': 'term_value', 'I': 'int_value', 'S': 'set_value', 'F': 'field_value', 'V': 'datum', 'P': 'truth', 'L': 'fields_value'}
MEANING_USES = 'Fields, Datum, an_object, a_number, a_truth, a_set, a_field, Interp, count_below, every, some, agree, divides_number, updated, reaches, is_forest, ' + ', '.join(VALUE[c] for c in ORDER + 'L')


def meaning_lemma(suffix, statement, leaf, last, part, under, wrap=lambda code, ctor, kinds, ns, proof: proof):
    """One function for each type; part(code, name, depth?) the recursive proof at i, which wrap puts into a larger one."""
    out = []
    for code in ORDER:
        f = f"{VALUE[code]}-{suffix}"
        out.append(f"  pub {f} : {statement(code)}")
        for variant, ctor, kinds in TYPES[code][3]:
            ns = names(kinds)
            head = f"  {f} {apply('t.' + ctor, ns)} {leaf.args}"
            own = leaf(code, ctor, kinds, ns)
            if own is not None:
                out.append(f"{head} = {own}")
                continue
            text = MEANING.get(ctor)
            if text is None:
                out.append(f"{head} = {wrap(code, ctor, kinds, ns, 'refl')}")
                continue
            hyps = leaf.split(kinds, ns)
            for kind, n in zip(kinds, ns):
                if is_part(kind):
                    if kind.endswith('+'):
                        text = text.replace('{' + n + '+}', under(core(kind), n, hyps.get(n)))
                    else:
                        text = text.replace('{' + n + '}', part(core(kind), n, hyps.get(n)))
            text = text.replace('{last}', last)
            proof = f"λ i. {text}" if 'i' in text and any(is_part(k) for k in kinds) else 'refl'
            out.append(f"{head} = {wrap(code, ctor, kinds, ns, proof)}")
        out.append('')
    return out


def meanings_file():
    def leaf(code, ctor, kinds, ns):
        field = {'free_object': 'object', 'free_number': 'number', 'free_set': 'set', 'free_field': 'field', 'free_truth': 'truth'}.get(ctor)
        if field:
            return f"keeps.{field} x d e h"
        if ctor == 'bound':
            return "keeps.bound k d e h"
        return None
    leaf.args = 'd e h'
    leaf.split = lambda kinds, ns: {}
    part = lambda c, n, hyp: f"{VALUE[c]}-mapped {n} d e h i"
    under = lambda c, n, hyp: f"({VALUE[c]}-mapped {n} (d + 1) (x ∷ e) (deeper d e x h) ∙ ap (λ g. {VALUE[c]} {n} n g) (keeps.under d e x)) i"
    lines = meaning_lemma('mapped', lambda c: f"(a : {tree_type(c)}) (d : ℕ) (e : List ℕ) → d ≤ length e → {VALUE[c]} (mapped_{fn_of(c)} a l d) m e ≡ {VALUE[c]} a n (view d e)",
                          leaf, '(keeps.last i)', part, under)
    # the interpretation's name must not be hidden by a part's name
    return f"""-- The meaning of a mapped tree: where each leaf keeps its meaning, the whole does.
use Rattle.std.proofs.Common.{{◌≡◌, refl, ap, ◌∙◌, ℕ, suc, ◌+◌, ◌≤◌, ◌==◌, not, ◌&&◌, ◌||◌, List, [], ◌∷◌, length, ℤ, pos, ◌+ℤ◌, ◌-ℤ◌, ◌*ℤ◌, neg_ℤ, int_lt, int_le, arith}}
use Rattle.std.specs.Ordering.{{int_eq}}
use Rattle.jh_form.specs.Tree.{{{TREES}}}
use Rattle.jh_form.specs.Tree as t
use Rattle.jh_form.specs.Meaning.{{{MEANING_USES}}}
use Rattle.jh_boxed.specs.Mapped.{{LeafMap, {', '.join('mapped_' + fn_of(c) for c in ORDER + 'L')}}}
use Rattle.jh_boxed.specs.Kept.{{Keeps}}

pub deeper : (d : ℕ) (e : List ℕ) (x : ℕ) → d ≤ length e → d + 1 ≤ length (x ∷ e)
deeper d e x h = omega arith

module _ (l : LeafMap) (m n : Interp) (view : ℕ → List ℕ → List ℕ) (keeps : Keeps l m n view) where
  mutual
    unfolding {' '.join('mapped_' + fn_of(c) for c in ORDER + 'L')}
""" + '\n'.join(('  ' + x if x else x) for x in lines) + """
    pub fields_value-mapped : (fs : FieldTrees) (d : ℕ) (e : List ℕ) → d ≤ length e → fields_value (mapped_fields fs l d) m e ≡ fields_value fs n (view d e)
    fields_value-mapped t.none d e h = refl
    fields_value-mapped (t.more f fs) d e h = λ i. field_value-mapped f d e h i ∷ fields_value-mapped fs d e h i
"""


def part_lemmas_file():
    parts_file()
    out = [f"""-- A part has fewer nodes than its whole.
use Rattle.std.proofs.Common.{{◌≡◌, ℕ, ◌+◌, ◌<◌, ◌≤◌, arith}}
use Rattle.jh_form.specs.Tree.{{{TREES}}}
use Rattle.jh_form.specs.Tree as t
use Rattle.jh_boxed.specs.Sizes.{{{', '.join(fn_of(c) + '_size' for c in ORDER + 'L')}}}
use Rattle.jh_boxed.specs.Parts.{{Among, first, later, IsChild, IsPart, child, within}}
use Rattle.jh_boxed.specs.Parts as p

pub among-size : (f : FieldTree) (fs : FieldTrees) → Among f fs → field_size f ≤ fields_size fs
unfolding fields_size
among-size _ _ (first f fs) = omega arith
among-size _ _ (later f g fs h) = let le : field_size f ≤ fields_size fs = among-size f fs h in omega arith

pub child-size : (a b : ValueTree) → IsChild a b → value_size a < value_size b
unfolding {' '.join(fn_of(c) + '_size' for c in ORDER + 'L')}"""]
    for name, ns in parts_file.proofs:
        if ns and ns[-1] == 'h':
            out.append(f"child-size _ _ (p.{name} {' '.join(ns)}) = let le : field_size f ≤ fields_size fs = among-size f fs h in omega arith")
        else:
            out.append(f"child-size _ _ {apply('p.' + name, ns)} = omega arith")
    out.append("""
pub part-size : (a b : ValueTree) → IsPart a b → value_size a < value_size b
part-size _ _ (child a b h) = child-size a b h
part-size _ _ (within a b c h k) = let lt : value_size a < value_size b = part-size a b h in let less : value_size b < value_size c = child-size b c k in omega arith
""")
    return '\n'.join(out)



# ---------------------------------------------------------------- tests over the leaves, by cases

SORT = {'free_object': 'Obj', 'free_number': 'Int', 'free_set': 'Set', 'free_field': 'Field', 'free_truth': 'Bool'}


def conjuncts(prefix, further):
    """The tests of the parts; further(kind) are the further arguments."""
    def at(kind, n):
        return f"{prefix(core(kind))} {n}{further(kind)}"
    return at


def closed_of(c):
    return f"is_closed_{fn_of(c)}"


def closed_at(kind, n):
    return f"{closed_of(core(kind))} {n} {'(d + 1)' if kind.endswith('+') else 'd'}"


def closed_case(code, ctor, kinds, ns):
    if ctor == 'bound':
        return 'nat_lt k d'
    parts = [closed_at(k, n) for k, n in zip(kinds, ns) if is_part(k)]
    return ' && '.join(parts) if parts else 'true'


def passes_of(c):
    return f"{fn_of(c)}_passes"


def passes_at(kind, n):
    return f"{passes_of(core(kind))} {n} p"


def passes_case(code, ctor, kinds, ns):
    if ctor in SORT:
        return f"p x Sort.{SORT[ctor]}"
    parts = [passes_at(k, n) for k, n in zip(kinds, ns) if is_part(k)]
    return ' && '.join(parts) if parts else 'true'


def closed_file():
    return f"""-- Trees without loose bound variables.
use Rattle.std.specs.Prelude.{{ℕ, ◌+◌, nat_lt, Bool, true, ◌&&◌}}
use Rattle.jh_form.specs.Tree.{{{TREES}}}
use Rattle.jh_form.specs.Tree as t

-- Each bound variable belongs to a binder of the tree, or to one of d binders around it.
""" + family(closed_of, lambda c: 'ℕ → Bool', closed_case, ' d', 'true', 'is_closed_field f d && is_closed_fields fs d')


def passing_file():
    return f"""-- Tests over the free names of a tree.
use Rattle.std.specs.Prelude.{{Bool, true, not, ◌&&◌, ◌||◌, nat_eq}}
use Rattle.std.specs.Cmp.Lexicographic.{{pointwise}}
use Rattle.jh_name.specs.declared.naming.Name.{{Name}}
use Rattle.jh_name.specs.declared.place.Sort as place
use Rattle.jh_name.specs.declared.place.Sort.TheVariants as Sort
use Rattle.jh_form.specs.Tree.{{{TREES}}}
use Rattle.jh_form.specs.Tree as t

-- Two names are one where their turns and their texts are.
unfoldable pub name_equal : Name → Name → Bool
name_equal x y = nat_eq x.turn y.turn && pointwise nat_eq x.text y.text

-- Each free name passes the test, at the sort at which it stands. Names in labels aren't free names.
""" + family(passes_of, lambda c: '(Name → place.Sort → Bool) → Bool', passes_case, ' p', 'true', 'field_passes f p && fields_passes fs p')


def steps_of(header, prefix, case, binders, args, empty, more, ruleset):
    return equations(header, [(prefix, case, binders, args, empty, more)], ruleset)


def pass_steps_file():
    return equations(f"""-- A test over the free names at each constructor.
use Rattle.std.proofs.Common.{{◌≡◌, refl, ◌&&◌, Bool, true, ℕ, ℤ}}
use Rattle.jh_name.specs.declared.naming.Name.{{Name}}
use Rattle.jh_name.specs.declared.place.Sort as place
use Rattle.jh_name.specs.declared.place.Sort.TheVariants as Sort
use Rattle.jh_form.specs.declared.mark.Mark.{{Mark}}
use Rattle.jh_form.specs.Tree.{{{TREES}}}
use Rattle.jh_form.specs.Tree as t
use Rattle.jh_form.specs.Passing.{{{', '.join(passes_of(c) for c in ORDER + 'L')}}}
""", [(passes_of, passes_case, '(p : Name → place.Sort → Bool)', ' p', 'true', 'field_passes f p && fields_passes fs p')], 'pass_steps')


def closed_steps_file():
    return equations(f"""-- Closedness at each constructor.
use Rattle.std.proofs.Common.{{◌≡◌, refl, ◌&&◌, Bool, true, nat_lt, ℕ, ◌+◌, ℤ}}
use Rattle.jh_name.specs.declared.naming.Name.{{Name}}
use Rattle.jh_form.specs.declared.mark.Mark.{{Mark}}
use Rattle.jh_form.specs.Tree.{{{TREES}}}
use Rattle.jh_form.specs.Tree as t
use Rattle.jh_form.specs.Closed.{{{', '.join(closed_of(c) for c in ORDER + 'L')}}}
""", [(closed_of, closed_case, '(d : ℕ)', ' d', 'true', 'is_closed_field f d && is_closed_fields fs d')], 'closed_steps')


def splitter(at):
    """The hypotheses on the parts, from the one on the whole, h."""
    def split(kinds, ns):
        parts = [(n, at(k, n)) for k, n in zip(kinds, ns) if is_part(k)]
        hyps, whole, left = {}, 'h', parts
        while len(left) > 1:
            *front, (n, test) = left
            joined = ' && '.join(t for _, t in front)
            hyps[n] = f"(both-right ({joined}) ({test}) {whole})"
            whole = f"(both-left ({joined}) ({test}) {whole})"
            left = front
        if left:
            hyps[left[0][0]] = whole
        return hyps
    return split


BOTH = """
pub both-left : (p q : Bool) → (p && q) ≡ true → p ≡ true
both-left true q h = refl
both-left false q h = h

pub both-right : (p q : Bool) → (p && q) ≡ true → q ≡ true
both-right true q h = h
both-right false q h = absurd (true≢false (sym h))
"""


def closed_lemmas_file():
    def leaf(code, ctor, kinds, ns):
        if ctor == 'bound':
            return 'same k (ltb-true k d h)'
        return None
    leaf.args = 'm d e g same h'
    leaf.split = splitter(closed_at)
    part = lambda c, n, hyp: f"{VALUE[c]}-closed {n} m d e g same {hyp} i"
    under = lambda c, n, hyp: f"{VALUE[c]}-closed {n} m (d + 1) (x ∷ e) (x ∷ g) (agree_under d e g x same) {hyp} i"
    lines = meaning_lemma('closed', lambda c: f"(a : {tree_type(c)}) (m : Interp) (d : ℕ) (e g : List ℕ) → AgreeBelow d e g → {closed_of(c)} a d ≡ true → {VALUE[c]} a m e ≡ {VALUE[c]} a m g",
                          leaf, 'm.last', part, under)
    return f"""-- The meaning of a tree without loose bound variables hangs on no objects for them.
use Rattle.std.proofs.Common.{{◌≡◌, refl, sym, ap, ◌∙◌, ℕ, zero, suc, ◌+◌, ◌<◌, ◌≤◌, ◌==◌, nat_lt, Bool, true, false, not, ◌&&◌, ◌||◌, List, [], ◌∷◌, length, slice_index, ℤ, pos, ◌+ℤ◌, ◌-ℤ◌, ◌*ℤ◌, neg_ℤ, int_lt, int_le, arith}}
use Rattle.std.proofs.lemmas.Bool.{{true≢false, ltb-true}}
use Rattle.std.specs.Ordering.{{int_eq}}
use Rattle.jh_form.specs.Tree.{{{TREES}}}
use Rattle.jh_form.specs.Tree as t
use Rattle.jh_form.specs.Meaning.{{{MEANING_USES}}}
use Rattle.jh_form.specs.Closed.{{{', '.join(closed_of(c) for c in ORDER + 'L')}}}
{BOTH}
-- the first d objects are the same
abbrev pub AgreeBelow : ℕ → List ℕ → List ℕ → Type 0
AgreeBelow d e g = (k : ℕ) → k < d → slice_index e k ≡ slice_index g k

pub agree_under : (d : ℕ) (e g : List ℕ) (x : ℕ) → AgreeBelow d e g → AgreeBelow (d + 1) (x ∷ e) (x ∷ g)
agree_under d e g x same zero h = refl
agree_under d e g x same (suc k) h = same k (omega arith)

mutual
  unfolding {' '.join(closed_of(c) for c in ORDER + 'L')}
""" + '\n'.join(lines) + """
  pub fields_value-closed : (fs : FieldTrees) (m : Interp) (d : ℕ) (e g : List ℕ) → AgreeBelow d e g → is_closed_fields fs d ≡ true → fields_value fs m e ≡ fields_value fs m g
  fields_value-closed t.none m d e g same h = refl
  fields_value-closed (t.more f fs) m d e g same h = λ i. field_value-closed f m d e g same (both-left (is_closed_field f d) (is_closed_fields fs d) h) i ∷ fields_value-closed fs m d e g same (both-right (is_closed_field f d) (is_closed_fields fs d) h) i
"""


def coincidence_file():
    def leaf(code, ctor, kinds, ns):
        field = {'free_object': 'object', 'free_number': 'number', 'free_set': 'set', 'free_field': 'field', 'free_truth': 'truth'}.get(ctor)
        return f"both.{field} x h" if field else None
    leaf.args = 'e h'
    leaf.split = splitter(passes_at)
    part = lambda c, n, hyp: f"{VALUE[c]}-agrees {n} e {hyp} i"
    under = lambda c, n, hyp: f"{VALUE[c]}-agrees {n} (x ∷ e) {hyp} i"
    lines = meaning_lemma('agrees', lambda c: f"(a : {tree_type(c)}) (e : List ℕ) → {passes_of(c)} a p ≡ true → {VALUE[c]} a m e ≡ {VALUE[c]} a n e",
                          leaf, '(both.last i)', part, under)
    return f"""-- The meaning of a tree hangs on the values of its free names alone.
use Rattle.std.proofs.Common.{{◌≡◌, refl, sym, ap, ◌∙◌, ℕ, suc, ◌+◌, ◌==◌, Bool, true, false, not, ◌&&◌, ◌||◌, List, [], ◌∷◌, ℤ, pos, ◌+ℤ◌, ◌-ℤ◌, ◌*ℤ◌, neg_ℤ, int_lt, int_le}}
use Rattle.std.specs.Ordering.{{int_eq}}
use Rattle.jh_name.specs.declared.naming.Name.{{Name}}
use Rattle.jh_name.specs.declared.place.Sort.{{Sort}}
use Rattle.jh_form.specs.Tree.{{{TREES}}}
use Rattle.jh_form.specs.Tree as t
use Rattle.jh_form.specs.Meaning.{{{MEANING_USES}}}
use Rattle.jh_form.specs.Passing.{{{', '.join(passes_of(c) for c in ORDER + 'L')}}}
use Rattle.jh_form.specs.Agreement.{{AgreeOn}}
use Rattle.jh_form.proofs.ClosedLemmas.{{both-left, both-right}}

module _ (p : Name → Sort → Bool) (m n : Interp) (both : AgreeOn p m n) where
  mutual
    unfolding {' '.join(passes_of(c) for c in ORDER + 'L')}
""" + '\n'.join(('  ' + x if x else x) for x in lines) + """
    pub fields_value-agrees : (fs : FieldTrees) (e : List ℕ) → fields_passes fs p ≡ true → fields_value fs m e ≡ fields_value fs n e
    fields_value-agrees t.none e h = refl
    fields_value-agrees (t.more f fs) e h = λ i. field_value-agrees f e (both-left (field_passes f p) (fields_passes fs p) h) i ∷ fields_value-agrees fs e (both-right (field_passes f p) (fields_passes fs p) h) i
"""


if __name__ == '__main__':
    import os
    import sys
    root = sys.argv[1]

    def write(path, text):
        os.makedirs(os.path.dirname(f'{root}/crates/{path}'), exist_ok=True)
        open(f'{root}/crates/{path}', 'w').write(text)
    write('jh_form/specs/Tree.antt', tree_file())
    write('jh_form/specs/Bare.antt', bare_file())
    write('jh_form/proofs/Steps.antt', steps_file())
    write('jh_form/specs/Kinds.antt', kinds_file())
    write('jh_boxed/specs/Shapes.antt', shapes_file())
    write('jh_boxed/specs/Mapped.antt', mapped_file())
    write('jh_boxed/specs/Sizes.antt', sizes_file())
    write('jh_boxed/specs/Parts.antt', parts_file())
    write('jh_boxed/proofs/MapSteps.antt', map_steps_file())
    write('jh_boxed/proofs/SizeSteps.antt', size_steps_file())
    write('jh_boxed/proofs/Identity.antt', unchanged_file())
    write('jh_boxed/proofs/Meanings.antt', meanings_file())
    write('jh_boxed/proofs/PartLemmas.antt', part_lemmas_file())
    write('jh_form/specs/Closed.antt', closed_file())
    write('jh_form/specs/Passing.antt', passing_file())
    write('jh_form/proofs/ClosedLemmas.antt', closed_lemmas_file())
    write('jh_form/proofs/ClosedSteps.antt', closed_steps_file())
    write('jh_form/proofs/PassSteps.antt', pass_steps_file())
    write('jh_form/proofs/Coincidences.antt', coincidence_file())
