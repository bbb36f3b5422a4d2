#!/usr/bin/env python3
"""Respells the repository's own names as today's Rattle spells them, once, after port.py has run over it.

usage: python3 tools/respell.py        at the top of the repository

- A definition, a lemma or a field of specs/ and proofs/ is written in snake case: `stageOf` becomes `stage_of`, `fold-sum` becomes `fold_sum`.
  Where a definition and a law would fall together, the law has the name that TOGETHER gives it.
- The crate `log` is named `reader`, since the library of the kit has a crate of that name.

It goes by words: in .antt files, in the clauses and the `ghost use` lines of .rt files, in the edits of must-fail/, and between backquotes in the pages.
Names that Rattle makes for the goals and steps of a function stay as they are, and so do the names of functions.
"""
import glob
import os
import re
import subprocess
import sys

# words that stand for two names, as they read before: what the law is called
TOGETHER = {
    'no-sets': 'no_sets_before',
    'at_stage': 'at_stage_is',
    'row-length': 'row_length_is',
    'no-challenges': 'no_challenges_yet',
    'no-complaints': 'no_complaints_of',
    'no-dealings': 'no_dealings_of',
    'no-responses': 'no_responses_of',
    'dealing-length': 'dealing_length_is',
    'response-length': 'response_length_is',
    'wrong-shares': 'wrong_shares_are',
    'wide_at': 'wide_at_is',
    'number-at': 'number_at_is',
    'inverse-to': 'inverse_to_is',
    'is-element': 'is_element_true',
    'or-next': 'or_next_zero',
    'fixed-length': 'fixed_length_positive',
    'row-passes': 'row_passes_each',
    'stage-of': 'stage_of_is',
    'weights-by': 'weights_by_is',
    'untaken-by': 'untaken_by_is',
    'batch-fits': 'batch_fits_true',
    'bit-or': 'bit_of_or',
    'share-valid': 'share_is_valid',
    'signed_lines': 'signed_lines_are',
    'stage-by': 'stage_by_accepted',
}
CRATES = {'log': 'reader'}
# what a goal of a function is typed as: such a name is the goal's, and stays
GOAL = re.compile(r'(?:tie|goal|lts)\.')
WORD = re.compile(r'[^\s(){}\[\],;.`|"]+')


def snake(name):
    name = name.replace('getD', 'get_or')
    name = re.sub(r'([a-z0-9])([A-Z])', lambda m: m.group(1) + '_' + m.group(2).lower(), name)
    return name.replace('-', '_')


def read(path):
    with open(path, encoding='utf-8') as f:
        return f.read()


def write(path, text):
    with open(path, 'w', encoding='utf-8') as f:
        f.write(text)


def sources():
    return sorted(p for p in glob.glob('crates/*/specs/*.antt') + glob.glob('crates/*/proofs/**/*.antt', recursive=True))


def declared():
    """the names that the files of specs/ and proofs/ declare, and the goals' names among them"""
    own, goals = set(), set()
    for path in sources():
        for line in read(path).split('\n'):
            if line.startswith(('use ', '--')):
                continue
            m = re.match(r'(?: {0,8})(?:unfoldable |abbrev )?(?:pub )?(?:record |data |unfoldable |abbrev )?([^\s:(){}]+)(?: [^:=]*)? : (.*)', line)
            if not m:
                continue
            name, rest = m.groups()
            if GOAL.match(rest):
                goals.add(name)
            else:
                own.add(name)
    return own, goals


def main():
    own, goals = declared()
    new = {}
    for name in own:
        if name in TOGETHER:
            new[name] = TOGETHER[name]
        elif name in goals:
            continue
        elif re.fullmatch(r"[a-zA-Z][\w'-]*", name) and (name[0].islower() or '-' in name):
            if snake(name) != name:
                new[name] = snake(name)

    # a name of the library or of a goal that reads like a new one, in a file that has both
    status = 0
    for path in sources():
        words = set(WORD.findall(re.sub(r'Rattle\.\w+\.proofs\.[\w.]+', '', read(path))))
        came = {}
        for w in words:
            to = new.get(w, w)
            came.setdefault(to, set()).add(w)
        for to, froms in came.items():
            if len(froms) > 1:
                print(f'{path}: {to} would stand for {", ".join(sorted(froms))}')
                status = 1

    def word(m):
        return new.get(m.group(0), m.group(0))

    def turned(text):
        return WORD.sub(word, text)

    crates = set(os.listdir('crates'))

    def kept(text):
        """the words that a file takes from the library: they stay in it"""
        words = set()
        for m in re.finditer(r'(?m)^(?:ghost )?use ([\w.]+?)\.\{([^}]*)\}', text):
            path = m.group(1).split('.')
            if path[0] != 'Rattle' or path[1] not in crates:
                words |= {w.strip().split(' as ')[-1] for w in m.group(2).split(',')}
        return words

    def turned_file(text):
        stay = kept(text)
        both = sorted(w for w in stay if w in new)

        def one(m):
            w = m.group(0)
            return w if w in stay else new.get(w, w)

        lines = [paged(line) if line.lstrip().startswith('--') else WORD.sub(one, line) for line in text.split('\n')]
        return '\n'.join(lines), both

    def paged(text):
        """the same in a text that port.py did not turn, where a name may still have its first spelling"""

        def first(m):
            w = m.group(0)
            if w in new or w in own or not (re.fullmatch(r"[a-z][\w'-]*", w) and snake(w) in own):
                return new.get(w, w)
            return new.get(snake(w), snake(w))

        return WORD.sub(first, text)

    def crate_paths(text):
        for old, to in CRATES.items():
            text = re.sub(rf'\bRattle\.{old}\.', f'Rattle.{to}.', text)
            text = re.sub(rf'(?<![\w:.]){old}::', f'{to}::', text)
            text = re.sub(rf'(?m)^(use ){old};', rf'\g<1>{to};', text)
        return text

    def rust(text):
        """only clauses and `ghost use` lines: braces after requires, ensures and ghost words"""
        out, at = [], 0
        for m in re.finditer(r'(?m)^(?:ghost use .*;$|\s*(?:requires|ensures|ghost)\b[^\n{]*\{)', text):
            if m.start() < at:
                continue
            end = m.end()
            if not m.group(0).startswith('ghost use'):
                depth = 1
                while depth:
                    depth += {'{': 1, '}': -1}.get(text[end], 0)
                    end += 1
            out.append(text[at:m.start()])
            out.append(turned(text[m.start():end]))
            at = end
        out.append(text[at:])
        return ''.join(out)

    for path in sources():
        text, both = turned_file(read(path))
        if both:
            print(f'{path}: of the library here: {" ".join(both)}')
        write(path, crate_paths(text))
    for path in sorted(glob.glob('crates/*/src/**/*.rt', recursive=True)):
        text = re.sub(r'`([^`\n]+)`', lambda m: '`' + paged(m.group(1)) + '`', rust(read(path)))
        write(path, crate_paths(text))
    for path in sorted(glob.glob('crates/*/must-fail/*.edit')):
        lines = []
        for line in read(path).split('\n'):
            m = re.match(r'(old: ?|new: ?)(.*)', line)
            lines.append(m.group(1) + crate_paths(paged(m.group(2))) if m else line)
        write(path, '\n'.join(lines))
    for path in ['README.md'] + sorted(glob.glob('docs/*.md') + glob.glob('docs/landings/*.md')):
        text = re.sub(r'`([^`\n]+)`', lambda m: '`' + paged(m.group(1)) + '`', read(path))
        for old, to in CRATES.items():
            text = text.replace(f'crates/{old}/', f'crates/{to}/').replace(f'`{old}::', f'`{to}::').replace(f'[{old}/', f'[{to}/')
            if path == 'docs/PROMISES.md':
                text = re.sub(rf'\b{old} (?=`)', f'{to} ', text)
            text = re.sub(rf'(?m)^(    ){old} ( *writers )', rf'\g<1>{to} \g<2>', text)
        write(path, text)

    for old, to in CRATES.items():
        if os.path.isdir(f'crates/{old}'):
            subprocess.run(['git', 'mv', f'crates/{old}', f'crates/{to}'], check=True)
        lines = []
        for line in read('crates.txt').split('\n'):
            if not line.startswith('#'):
                line = ' '.join(to if w == old else to + ':' if w == old + ':' else w for w in line.split(' '))
            lines.append(line)
        write('crates.txt', '\n'.join(lines))
    print(f'{len(new)} names')
    return status


if __name__ == '__main__':
    sys.exit(main())
