#!/usr/bin/env python3
"""Counts, in the sources of the crates, the places that could read like an older Rattle, one kind after another.

    python3 tools/places.py [FOLDER] [--list]

FOLDER is the top of a checkout (this one, if none is given); --list prints each place. docs/DESIGN-PASS.md has the counts
before and after the design pass, and what was kept.
"""
import collections
import glob
import os
import re
import sys

# (section of the page, what is looked for, regular expression on one line of src/)
LINES = [
    (1, 'flags: fields that are bool', r'^\s+(pub(\(crate\))? )?[a-z_]+: bool,'),
    (1, 'sentinels: constants of a row that is none', r'\bconst NO_[A-Z_]+:'),
    (1, 'letters for kinds: fields and parameters that are char', r'\b(kind|letter|late|side|rest|leg): (Option<)?char\b'),
    (1, 'outcomes as bool of a function that writes', r'fn .*&mut [^)]*\) -> bool|-> Result<bool'),
    (1, 'results taken apart by hand: arms of Err', r'^\s+Err\(([a-z]+|_|Refused \{.*)\) =>'),
    (1, 'errors made by hand where a value lacks: let else', r'^\s+let Some\(.*\) = .* else \{'),
    (1, 'own enums', r'^\s*(pub(\(crate\))? )?enum '),
    (3, 'loops over numbers', r'^\s+for \w+ in [^{]*\.\.'),
    (3, 'cursors moved by hand', r'^\s+(left /= 2|at = |len = insert|total \+=|sum \+=|let mut (left|at|total|len|sum)\b)'),
    (3, 'a number made an index by hand', r'as usize - 1|as usize > |i == 0 \|\||n == 0 \|\|'),
    (4, 'types that derive copying alone', r'^#\[derive\(Clone, Copy\)\]$'),
    (4, 'a bool written as the arms of a match', r'=> (true|false),?$'),
    (4, 'conversions written as functions', r'fn (\w*_of|of|letter_of|side_meant|leg_asked|leg_met|own_side|letter_at|letter_shown|low)\b.*'),
    (4, 'texts printed by hand: format! and then extend', r'\.extend_from_slice\(\w+\.as_bytes\(\)\)'),
    (4, 'refusals printed by hand', r'no \{number\} \{layer\} \{place\}'),
    (5, 'clauses that ask or give soundness of the tables', r'\b(Sound|Sized|Counted) (t|result|tables|s\.t)\b'),
    (5, 'clauses that ask where requests stand', r'\b(Seated|Placed) '),
    (5, 'functions of tables and source', r'\bt: &(mut )?Tables, source: &|^\s+source: &S,'),
    (5, 'functions of a text and its heap', r'\btext: &mut Vec<u8>, heap: Global|^\s+text: &mut Vec<u8>,$'),
    (6, 'a length beside a buffer', r'^\s+(pub )?(\w+_count|len): usize,$|\b(count|len): usize\b[,)]'),
    (6, 'arrays of rows with a length', r'\[(Candidate|Trade|Symbol|Request|Quote|Listed|NO_\w+); \d+\]'),
    (7, 'switches on a step, and structs that only name one', r'^impl Change<|^pub enum Step|^pub trait Change'),
]
# A loop whose body only finds, tests or adds up: a chain of an iterator says the same.
SEARCHES = re.compile(r'^\s+for [^\n]*\{\n(?:(?!^\s{4}\}).*\n)*?\s+(?:return (?:true|false|i|Some\(\w+\));|(?:total|sum) \+= )', re.M)


def sources(top):
    for path in sorted(glob.glob(os.path.join(top, 'crates', '*', 'src', '**', '*.rt'), recursive=True)):
        yield path.split(os.sep + 'crates' + os.sep)[1], open(path).read()


def bodies(text):
    """Each function: its name, and its body with names told apart only by their order."""
    for found in re.finditer(r'^( *)(?:pub(?:\(crate\))? )?(?:const )?fn (\w+)', text, re.M):
        indent = found.group(1)
        end = text.find('\n' + indent + '}', found.end())
        whole = text[found.end():end]
        start = whole.rfind('\n' + indent + '{')
        inside = whole[start + 2:] if start >= 0 else whole
        if inside.count('\n') < 3:
            continue
        names = {}
        shape = re.sub(r"[A-Za-z_]\w*|'.'|\d[\d_]*", lambda m: m.group(0) if m.group(0) in WORDS else names.setdefault(m.group(0), '#%d' % len(names)), inside)
        yield found.group(2), re.sub(r'\s+', ' ', shape)


WORDS = set('if else match for in let mut return true false None Some Ok Err self as u8 u16 u32 u64 usize'.split())


def main():
    flags = [a for a in sys.argv[1:] if a.startswith('--')]
    top = ([a for a in sys.argv[1:] if not a.startswith('--')] + [os.path.join(os.path.dirname(__file__), '..')])[0]
    found = collections.OrderedDict(((point, what), []) for point, what, _ in LINES)
    twins = collections.defaultdict(list)
    for path, text in sources(top):
        for number, line in enumerate(text.split('\n'), 1):
            if line.lstrip().startswith('//'):
                continue
            for point, what, pattern in LINES:
                if re.search(pattern, line):
                    found[point, what].append('%s:%d: %s' % (path, number, line.strip()))
        for search in SEARCHES.finditer(text):
            key = (3, 'loops that only find, test or add up')
            found.setdefault(key, []).append('%s:%d: %s' % (path, text.count('\n', 0, search.start()) + 1, search.group(0).split('\n')[0].strip()))
        for name, shape in bodies(text):
            twins[shape].append('%s: %s' % (path, name))
    for group in twins.values():
        if len(group) > 1:
            found.setdefault((2, 'functions of one shape'), []).extend(group)
    for point, what in sorted(found):
        places = found[point, what]
        print('%d  %-62s %4d' % (point, what, len(places)))
        if '--list' in flags:
            for place in places:
                print('       ' + place)


main()
