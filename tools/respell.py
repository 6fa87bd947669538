#!/usr/bin/env python3
"""Spells the repository's own definitions, lemmas, fields and constructors as Rattle's guide asks: words in snake case.

usage: tools/respell.py            at the top of the repository, once, after /opt/rattle/port/port.py
       tools/respell.py --table    prints old and new names and changes nothing

A name in camel case becomes words joined by '_'. A dash stays between the names of two definitions, as in length-blit, and beside
a type; elsewhere it becomes '_'. A name that would meet another one keeps its dash, or takes its spelling from MET. What the Rust
calls its own, names that Rattle makes (in proofs of functions, behind a dot or as an answer's name) and imported names stay.
"""
import glob
import os
import re
import sys

WORD = re.compile(r'[^\s(){}.;,@"«»]+')
DECLARED = re.compile(r'(?m)^ *((?:(?:pub|abbrev|unfoldable|record|data) +)*)([^\s(){}.;,@"«»]+)((?: +\([^\n]*?\)| +\{[^\n]*?\})*) +:(?= )')
USE = re.compile(r'(?m)^ *(?:pub )?use +(\S+?)(?:\.\{([^}]*)\})?(?: as (\S+))?$')
CLAUSE = re.compile(r'\bghost use\b|\b(?:requires|ensures)\s*\*?\s*\w*\s*\{|\bghost\b[^{;\n]*\{')
# where two names would meet, or an acronym would hide another word
MET = {'kindAT': 'kind_at_block', 'length-in': 'length-in'}
STD = set('length take drop set append get_or sum map add mul sub div mod suc zero max min reverse replicate filter concat foldl foldr zip'.split())


def texts(ending):
    return sorted(p for p in glob.glob('crates/**/*' + ending, recursive=True) if '/out/' not in p)


def read(p):
    with open(p, encoding='utf-8') as f:
        return f.read()


def bare(text):
    return re.sub(r'(?m)(?<![^\s(){};,])--.*$', '', re.sub(r'\{-.*?-\}', '', text, flags=re.S))


def camel(word):
    return bool(re.search(r'[A-Z]', word)) and word[:1].islower()


def snake(word):
    if not camel(word):
        return word
    word = re.sub(r'([A-Z]+)(?=[A-Z][a-z])', lambda m: '_' + m[1].lower(), word)
    return re.sub(r'[A-Z]+', lambda m: '_' + m[0].lower(), word)


def in_proof(p):
    return p.endswith('/Proof.antt')


def table():
    defs, own, others, tokens = set(), set(), set(), set()
    for p in texts('.antt'):
        t = bare(read(p))
        for mods, name, _ in DECLARED.findall(t):
            if in_proof(p) and re.search(r'(?m)^%s : tie\.' % re.escape(name), t):
                continue
            own.add(name)
            if 'abbrev' in mods or 'unfoldable' in mods:
                defs.add(name)
        for m in re.finditer(r'(?m)^ *data .*? where\n((?: +.*\n)+)', t):
            own.update(n for line in m[1].split('\n') for n in re.findall(r'^ +(\S+) :', line))
        for path, items, _ in USE.findall(t):
            # what the libraries and Rattle's own modules give is theirs
            if not re.match(r'Rattle[.·]\w+\.(specs|proofs)\.[A-Z]', path) or path.startswith('Rattle.std.'):
                others.update(WORD.findall(items))
        # modules under another name, and what a law is said of
        own.update(a for _, _, a in USE.findall(t) if camel(a))
        own.update(w for names in re.findall(r'[({]((?:[^\s(){}.;,@"«»]+ +)+): ', t) for w in names.split() if camel(w))
        tokens.update(WORD.findall(t))
    for p in texts('.rt'):
        for m in re.finditer(r'ghost use (Rattle\.std[^;{]*)\{([^}]*)\}', read(p)):
            others.update(WORD.findall(m[2]))
    own -= others
    lemmas = own - defs
    names = {n for n in defs if '-' not in n} | STD
    new = {}
    for name in sorted(own):
        parts = name.split('-')
        out = snake(parts[0])
        for a, b in zip(parts, parts[1:]):
            kept = (a in names and b in names) or a[:1].isupper() or b[:1].isupper() or not (a[:1].isalpha() and b[:1].isalpha())
            out += ('-' if kept else '_') + snake(b)
        if name.endswith(('-spec', '_spec')):
            out = snake(name.replace('-', '_'))
        new[name] = MET.get(name, out)
    # a lemma that would have a definition's name, or another lemma's, says so
    taken = {}
    for name in sorted(own, key=lambda n: (n not in defs, '-' in n, n)):
        b = new[name]
        while b in taken or (b != name and b in tokens and b not in own):
            if name in defs:
                break
            b += '_lem' if not b.endswith('_lem') else "'"
        new[name] = b
        taken.setdefault(b, []).append(name)
    for b, olds in taken.items():
        if len(olds) > 1:
            print('meets:', b, olds, file=sys.stderr)
    return {a: b for a, b in new.items() if a != b}


def antt(text, new, proof):
    stays = set(re.findall(r'(?m)^(\S+) : tie\.', text)) if proof else set()
    lines, out = text.split('\n'), []
    for line in lines:
        use = line.lstrip().startswith(('use ', 'pub use '))
        path = re.match(r' *(?:pub )?use +[^\s{]*', line).end() if use else 0

        def one(m):
            w = m[0]
            if w in stays or w not in new or m.start() < path:
                return w
            if proof and not use and m.start() and line[m.start() - 1] == '.' and not camel(w):
                return w
            return new[w]

        out.append(WORD.sub(one, line))
    return '\n'.join(out)


def rust(text, new, spans=None):
    out, at = [], 0
    while True:
        m = CLAUSE.search(text, at)
        if not m:
            break
        if m[0] == 'ghost use':
            end = text.index(';', m.end())
        else:
            depth, end = 1, m.end()
            while depth and end < len(text):
                depth += {'{': 1, '}': -1}.get(text[end], 0)
                end += 1
        if spans is not None:
            spans.append(text[m.end():end])
        out += [comments(text[at:m.end()], new), WORD.sub(lambda w: new.get(w[0], w[0]), text[m.end():end])]
        at = end
    return ''.join(out) + comments(text[at:], new)


def comments(text, new):
    return re.sub(r'//[^\n]*', lambda m: re.sub(r'\b[a-z]\w*[A-Z]\w*\b', lambda w: new.get(w[0], w[0]), m[0]), text)


def conflicts(new):
    for p in texts('.antt') + texts('.rt'):
        t = read(p)
        if p.endswith('.rt'):
            spans = []
            rust(t, new, spans)
            used = set(WORD.findall(' '.join(spans)))
            there = set(re.findall(r'\b(\w+) ?:(?!:)', re.sub(r'(?m)//.*$', '', t))) | set(re.findall(r'\blet (?:mut )?(\w+)', t)) | used
        else:
            used = there = set(WORD.findall(bare(t)))
        for w in used:
            b = new.get(w)
            if b and b in there and b not in new:
                print('hidden:', p, w, b)


def main():
    new = table()
    if '--conflicts' in sys.argv:
        conflicts(new)
        return
    if '--table' in sys.argv:
        for a, b in sorted(new.items()):
            print(a + '\t' + b)
        return
    for p in texts('.antt') + texts('.rt'):
        old = read(p)
        t = antt(old, new, in_proof(p)) if p.endswith('.antt') else rust(old, new)
        if t != old:
            with open(p, 'w', encoding='utf-8') as f:
                f.write(t)
    if os.environ.get('RESPELL_TABLE'):
        with open(os.environ['RESPELL_TABLE'], 'w', encoding='utf-8') as f:
            f.writelines(a + '\t' + b + '\n' for a, b in sorted(new.items()))


if __name__ == '__main__':
    main()
