#!/usr/bin/env python3
"""Brings the names of this repository's definitions and lemmas to snake case: from priceAt and first-is-smallest to price_at and
first_is_smallest. It is run once, at the top, on a tree that the port.py of the toolchain has just turned; on a tree in snake case it
changes nothing. Functions, exported names, strings, types and modules keep their spelling.

It reads which names the files of specs/ and proofs/ declare, and respells these, wherever they stand in .antt files, in the clauses
and imports of .rt files, and in backquotes in the documents. Where a lemma or a field would fall together with the definition that it is
about, it gets `_lem` (LEMMAS)."""
import glob
import os
import re
import sys

# A lemma or field whose name, in snake case, would be that of a definition in scope beside it.
LEMMAS = {
    'at-least': 'at_least_lem', 'at-most': 'at_most_lem', 'first-price': 'first_price_lem', 'last-price': 'last_price_lem',
    'well-formed': 'well_formed_lem', 'not-refused': 'not_refused_lem', 'trade-range': 'trade_range_lem', 'trade-on': 'trade_on_lem',
    'spread-up': 'spread_up_lem', 'spread-down': 'spread_down_lem', 'known-queue': 'known_queue_lem', 'price-found': 'price_found_lem',
    'run-from': 'run_from_lem', 'high-by': 'high_by_lem',
    # these port.py has respelled already, and their definitions not yet
    'two_digits': 'two_digits_lem', 'low_by': 'low_by_lem', 'none_between': 'none_between_lem',
}
# variables, and lemmas within a proof
LOCAL = ['goOn', 'lastAsk', 'lastBid', 'lowestBid', 'lowestAsk', 'highestBid', 'highestAsk', 'orderType', 'anyToday', 'first-below-last', 'held-q',
         'judged-before', 'answered-by', 'one-question', 'scale-positive']
# names of fields that a user of `ask` types
TYPED = {'last-bid', 'last-ask', 'day-low', 'day-high'}
BEFORE = {'two_digits': 'twoDigits', 'low_by': 'lowBy', 'none_between': 'noneBetween'}

DECLARED = re.compile(r'^\s*(?:(?:abbrev|unfoldable|pub)\s+)*([^\s(){};,.:]+)\s*:(?!=)')
# names of a step's goals in a proof by hand: they follow the code, not a rule of spelling
OF_GOALS = re.compile(r'^(Need|After|At|Last)-|-requires(-\d+)?$|^(returns|invariant|decreases|loop|enum|add|sub|mul|div|rem|cast|shared)-')
TOKEN = re.compile(r"[^\s(){}\[\];,.«»⌜⌝`\"|:?!/]+")


def snake(name):
    return re.sub(r'(?<=[a-z0-9])([A-Z])', lambda m: '_' + m.group(1).lower(), name).replace('-', '_')


def antt_files():
    return sorted(glob.glob('crates/*/specs/**/*.antt', recursive=True) + glob.glob('crates/*/proofs/**/*.antt', recursive=True))


def declared():
    names = set(LOCAL)
    for path in antt_files():
        for line in open(path, encoding='utf-8'):
            if line.lstrip().startswith('--'):
                continue
            found = DECLARED.match(line)
            if found:
                name = found.group(1)
                if name[0].islower() and not OF_GOALS.search(name) and snake(name) != name:
                    names.add(name)
    return names


def spelling(names):
    to = {name: LEMMAS.get(name, snake(name)) for name in names}
    for name, definition in BEFORE.items():
        if definition in names:
            to[name] = LEMMAS[name]
    return to


def turned(text, to):
    return TOKEN.sub(lambda m: to.get(m.group(0), m.group(0)), text)


def in_antt(line, to):
    code, dash, comment = line.partition('-- ') if line.lstrip().startswith('--') else (line, '', '')
    spoken = {name: new for name, new in to.items() if '-' not in name or name.count('-') > 1}
    return turned(code, to) + dash + turned(comment, spoken)


def in_rt(text, to):
    camel = {name: new for name, new in to.items() if '-' not in name and '_' not in name}
    out, depth, ghost = [], 0, False
    for line in text.split('\n'):
        clause = depth > 0 or re.match(r'\s*(requires|ensures|ghost|decreases)\b', line)
        if clause and not line.lstrip().startswith('//'):
            depth += line.count('{') - line.count('}')
            out.append(turned(line, {n: t for n, t in to.items() if n not in BEFORE}))
            if depth < 0:
                depth = 0
        else:
            out.append(turned(line, camel))
    return '\n'.join(out)


def in_document(text, to):
    known = {n: t for n, t in to.items() if n not in BEFORE and n not in TYPED}
    return re.sub(r'`[^`\n]+`', lambda m: turned(m.group(0), known), text)


def rewrite(path, change):
    text = open(path, encoding='utf-8').read()
    new = change(text)
    if new != text:
        open(path, 'w', encoding='utf-8').write(new)
        return 1
    return 0


def main():
    os.chdir(os.path.join(os.path.dirname(os.path.abspath(sys.argv[0])), '..') if len(sys.argv) < 2 else sys.argv[1])
    to = spelling(declared())
    count = 0
    for path in antt_files():
        before = set(TOKEN.findall(open(path, encoding='utf-8').read()))
        for name, new in to.items():
            if name in before and new in before and name != new:
                print(f'{path}: {name} and {new} fall together')
        count += rewrite(path, lambda text: '\n'.join(in_antt(line, to) for line in text.split('\n')))
    for path in sorted(glob.glob('crates/*/src/**/*.rt', recursive=True)):
        count += rewrite(path, lambda text: in_rt(text, to))
    for path in ['README.md', *sorted(glob.glob('docs/*.md'))]:
        count += rewrite(path, lambda text: in_document(text, to))
    print(f'{len(to)} names, {count} files')


main()
