#!/usr/bin/env python3
"""Takes the imports that nothing uses out of a file of proofs or definitions."""
import re

NAME = r"[\w'≡≤≢-]"


def is_used(name, body):
    """Whether the text of a file after its imports uses an imported name; an operator shows its parts."""
    name = name.split(' as ')[-1].strip()
    if '◌' in name:
        return all(part in body for part in name.split('◌') if part)
    if not re.match(r'\w', name):
        return name in body
    return re.search(rf"(?<!{NAME}){re.escape(name)}(?!{NAME})", body) is not None


def settled(text):
    lines = text.split('\n')
    body = '\n'.join(line for line in lines if not line.lstrip().startswith(('use ', '--')))
    out = []
    for line in lines:
        several = re.match(r'(use [\w.+-]+\.)\{(.*)\}$', line)
        alias = re.match(r'use [\w.+-]+ as (\w+)$', line)
        if several:
            names = [name.strip() for name in several[2].split(',')]
            kept = [name for name in names if is_used(name, body)]
            if kept:
                out.append(f"{several[1]}{{{', '.join(kept)}}}")
        elif alias:
            if re.search(rf"(?<![\w.-]){alias[1]}\.", body):
                out.append(line)
        else:
            out.append(line)
    return '\n'.join(out)
