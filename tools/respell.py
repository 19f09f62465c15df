#!/usr/bin/env python3
"""Brings the repository's own definitions and lemmas to one spelling: snake case, types and modules in upper camel case.

    python3 tools/respell.py [--list]

Run once at the top, behind port.py. The names are those that specs/*.antt and proofs/*.antt of a crate declare at the left margin,
and the fields of their records. Functions of src/, exported names, strings, inputs and outputs keep theirs.
Names that would fall together are listed and nothing is written. --list prints old and new and writes nothing.
"""
import collections
import glob
import re
import sys

# Words of prose that are spelled as a name is: left as they are in comments and pages.
PROSE = {'timed-out', 'one-job', 'one-way', 'two-way', 'left-over'}
# A lemma whose new name is a function's or a definition's.
OTHERWISE = {
    'active-at': 'active_at_lem', 'answer-bytes': 'answer_bytes_lem', 'answer-line': 'answer_line_lem', 'job-cost': 'job_cost_lem',
    'refusal-line': 'refusal_line_lem', 'with-step': 'with_step_lem', 'without-step': 'without_step_lem', 'on-numbers': 'on_numbers_lem', 'of-numbers': 'of_numbers_lem', 'bit-and': 'bit_and_lem', 'bit-or': 'bit_or_lem', 'bit-xor': 'bit_xor_lem',
}


def new_name(name):
    if name in OTHERWISE:
        return OTHERWISE[name]
    if re.match(r'[A-Z]', name) and '-' not in name:
        return name
    parts = name.split('-')
    out = []
    for p in parts:
        # aB -> a_b, but a type at the head of a part keeps its capital
        out.append(re.sub(r'(?<=[a-z0-9])([A-Z])', lambda m: '_' + m.group(1).lower(), p) if re.match(r'[a-z]', p) else p)
    return '_'.join(out)


def declared():
    names = collections.OrderedDict()
    for f in sorted(glob.glob('crates/*/specs/*.antt') + glob.glob('crates/*/proofs/*.antt')):
        for line in open(f, encoding='utf-8'):
            m = re.match(r'((?:pub |unfoldable |abbrev |record |data )*)([^\s:{(-][^\s:{(]*)(?: |$)', line)
            if m and not line.startswith((' ', 'use ', '--', 'where', 'unfolding', 'mod ', 'pub mod', 'pub use', 'ruleset', 'module')):
                if ' : ' in line:
                    names.setdefault(m.group(2), f)
            # fields of records, what a section `module _ ..` declares, and what stands behind a `where`
            m = re.match(r'\s+(?:pub |unfoldable |abbrev |record |data )*([^\s:{(-][^\s:{(]*)(?: \(.*\))? : ', line)
            if m:
                names.setdefault(m.group(1), f)
    EVERY.update(new_name(n) for n in names)
    return {n: new_name(n) for n in names if new_name(n) != n}


# Each declared name, as it is spelled afterwards.
EVERY = set()

TOKEN = re.compile(r'[^\s(){}\[\].,;:|"`⌜⌝⟨⟩→×≡/*+=<>]+')


def respell(text, names, behind=False):
    """The text with its names respelled; with behind, those too that port.py respelled in the sources alone."""
    def of(m):
        t = m.group(0)
        if t in names:
            return names[t]
        n = new_name(t)
        return n if behind and n in EVERY else t
    return TOKEN.sub(of, text)


def respell_code(text, names, behind=False):
    plain = {k: v for k, v in names.items() if k not in PROSE}
    out = []
    for line in text.split('\n'):
        at = line.find('--') if line.lstrip().startswith('--') else line.find('//')
        if line.lstrip().startswith(('--', '//')):
            out.append(respell(line, plain, behind))
        elif at >= 0:
            out.append(respell(line[:at], names, behind) + respell(line[at:], plain, behind))
        else:
            out.append(respell(line, names, behind))
    return '\n'.join(out)


def respell_page(text, names):
    """Only what stands in backticks, and words of code there."""
    return re.sub(r'`[^`\n]+`', lambda m: respell(m.group(0), names, True), text)


def main():
    names = declared()
    back = collections.defaultdict(set)
    for o, n in names.items():
        back[n].add(o)
    every = set()
    for f in glob.glob('crates/**/*.antt', recursive=True) + glob.glob('crates/**/*.rt', recursive=True):
        every |= set(TOKEN.findall(open(f, encoding='utf-8').read()))
    if '--list' in sys.argv:
        for o, n in sorted(names.items()):
            print(o, n)
        return 0
    together = [(n, sorted(o)) for n, o in back.items() if len(o) > 1]
    taken = sorted(n for n in back if n in every)
    for n, o in together:
        print('fall together: %s: %s' % (n, ', '.join(o)))
    for n in taken:
        print('stands already: %s' % n)
    if together:
        return 1
    for f in sorted(glob.glob('crates/**/*.antt', recursive=True) + glob.glob('crates/**/*.rt', recursive=True)
                    + glob.glob('crates/*/must-fail/*.edit')):
        old = open(f, encoding='utf-8').read()
        new = respell_code(old, names, f.endswith('.edit'))
        if new != old:
            open(f, 'w', encoding='utf-8').write(new)
    for f in ['README.md', 'CONTRIBUTING.md', 'CHANGELOG.md'] + sorted(glob.glob('docs/*.md')) + sorted(glob.glob('tests/mutants*')):
        old = open(f, encoding='utf-8').read()
        new = respell_page(old, names)
        if new != old:
            open(f, 'w', encoding='utf-8').write(new)
    return 0


sys.exit(main())
