#!/usr/bin/env python3
"""Spells the repository's own definitions and lemmas as Rattle's libraries do: words in snake case.

usage: python3 tools/respell.py [--check] [FOLDER]

Run it once, after the toolchain's own scripts. A name that specs/ or proofs/ declare turns in every proof file, definition
and clause; functions of src/, strings, inputs and outputs stay. --check only lists what would turn, and which names would
fall together.

camelCase becomes snake_case. A dash between two names stays, as in label_words-label_of; before or after a plain word it
becomes an underscore, as in child_room. A type with a dash is joined, as AtDone. A lemma that would have a definition's
name ends in _lem, and one that says that a definition's checks hold in _hold.
"""
import collections
import pathlib
import re
import sys

WORD = re.compile(r'[^\s(){}.;,@"«»]+')
DECLARED = re.compile(r'^ *(?:(?:pattern|unfoldable|abbrev|pub|data|record) )*([^\s(){}.;,@"«»]+)(?: \{[^{}\n]*\})* :(?= |$)', re.M)
BARE = re.compile(r'^ *(?:(?:pattern|unfoldable|abbrev|pub) )*([^\s(){}.;,@"«»:=|]+) :(?= |$)', re.M)
CASES = re.compile(r'^ +([a-z]\w*(?: [a-z]\w*)+) :(?= |$)', re.M)
USED = re.compile(r'\buse ([^\s;{]+)(?:\{([^}]*)\})?(?: as ([^\s;]+))?')
COMMENT = re.compile(r'(?<![^\s(){}.;,@"«»])--[^\n]*')
# What does not turn in a proof file: a comment, but for its names, and the path of a module.
QUIET_ANTT = re.compile(COMMENT.pattern + r'|\b(?:Rattle|package)(?:\.[^\s(){}.;,@"«»]+)+(?=\.\{| as |\s*$)', re.M)
QUIET = re.compile(r'"(?:\\.|[^"\\\n])*"|b?\'(?:\\.|[^\'\\\n])\'|//[^\n]*')
SPAN = re.compile(r'`[^`\n]+`')
# The list words of the library, which a lemma's name joins by a dash.
LIBRARY = set('length take drop append map set get_or replicate concat reverse filter sum flat_map up_to'.split())
# Names that the toolchain makes, or looks for.
MADE = re.compile(r'(invariant|decreases|measure|mu)-loop.*')
# Words that a library respelled otherwise than by the rule.
LEARNT = {'getD': 'get_or'}

def snake(word):
    word = LEARNT.get(word, word)
    return re.sub(r'(?<=[a-z0-9₀-₉])[A-Z]', lambda m: '_' + m[0].lower(), word)


def respelled(name, names):
    parts = name.split('-')
    if name[0].isupper():
        return ''.join(p[:1].upper() + p[1:] for p in parts) if len(parts) > 1 else name
    parts = [snake(p) for p in parts]
    made = parts[0]
    for before, part in zip(parts, parts[1:]):
        made += ('-' if before in names and part in names else '_') + part
    return made


def antt_code(text):
    return COMMENT.sub(' ', text)


def files(root):
    for path in sorted(root.glob('crates/*/*/**/*')):
        if path.suffix in ('.rt', '.antt') and 'out' not in path.parts[len(root.parts):]:
            yield path


def table(root):
    """The names that turn, each with its new spelling; the names declared; the crates."""
    declared, of_specs, texts = set(), set(), []
    crates = {p.name for p in root.glob('crates/*')}
    for path in files(root):
        if path.suffix != '.antt':
            continue
        code = antt_code(path.read_text())
        here = set(DECLARED.findall(code)) | set(BARE.findall(code)) | set(' '.join(CASES.findall(code)).split())
        here |= local_names(path, code, crates)
        declared |= here
        texts.append((set(WORD.findall(code)), foreign_names(code, crates)))
        if 'specs' in path.parts:
            of_specs |= here
    names = {snake(n) for n in of_specs if '-' not in n}
    names = {n for n in names if '_' in n} | LIBRARY
    turn = {n: respelled(n, names) for n in declared if WORD.fullmatch(n) and not MADE.fullmatch(n)}
    rivals = collections.defaultdict(set)
    for name, new in turn.items():
        rivals[new].add(name)
    for new, olds in rivals.items():
        # The definition in camel case has the name; one that had its spelling before is a lemma.
        kept = {n for n in olds if snake(n) != n and '-' not in n} or {n for n in olds if n in of_specs}
        # A library's name that stands in the same file has it too.
        if any(new in foreign and olds & words for words, foreign in texts):
            kept = {new}
        for name in olds - kept if len(olds | kept) > 1 else []:
            turn[name] = new + ('_hold' if new.endswith('_checks') else '_lem')
    return {n: new for n, new in turn.items() if new != n}, declared, crates


def is_ours(path, crates):
    steps = path.split('.')
    return steps[0] == 'Rattle' and len(steps) > 1 and steps[1] in crates


def foreign_names(code, crates):
    """What a file imports from libraries."""
    names = set()
    for path, items, _ in USED.findall(code):
        if not is_ours(path, crates):
            names.update(WORD.findall(items) if items else path.split('.')[-1:])
    return names


def local_names(path, code, crates):
    """The variables with a dash in a file of definitions or lemmas."""
    if path.parent.name not in ('specs', 'proofs'):
        return set()
    behind_dot = set(re.findall(r'\.([^\s(){}.;,@"«»]+)', code))
    words = set(re.findall(r'(?<![^\s(){};,])[a-z]\w*(?:-[a-z]\w*)+(?![^\s(){};,.])', code))
    return words - behind_dot - foreign_names(code, crates)


def turned_antt(text, turn, crates):
    """A file of specs/ or proofs/: names of libraries that it imports stay."""
    code = antt_code(text)
    foreign = foreign_names(code, crates)
    aliases = {a: a.replace('-', '_') for _, _, a in USED.findall(code) if '-' in a}
    here = {n: new for n, new in turn.items() if n not in foreign} | aliases
    out, at = [], 0
    for m in QUIET_ANTT.finditer(text):
        out.append(WORD.sub(lambda w: here.get(w[0], w[0]), text[at:m.start()]))
        out.append(turned_prose(m[0], here) if m[0].startswith('--') else m[0])
        at = m.end()
    out.append(WORD.sub(lambda w: here.get(w[0], w[0]), text[at:]))
    return ''.join(out)


def turned_prose(text, turn):
    """A comment or a document: a code span turns, and a bare word in camel case."""
    def span(m):
        return WORD.sub(lambda w: spanned(w[0], turn), m[0])
    text = SPAN.sub(span, text)
    return re.sub(r"(?<![\w.'-])[a-z]+[A-Z]\w*(?![\w'-])", lambda m: turn.get(m[0], m[0]), text)


def spanned(word, turn):
    bare = word.strip('`')
    return word.replace(bare, turn[bare]) if bare in turn else word


def turned_rt(text, turn):
    """A source file: its clauses name definitions, which alone are in camel case."""
    turn = {n: new for n, new in turn.items() if snake(n) != n and '-' not in n}
    out, at = [], 0
    for m in QUIET.finditer(text):
        out.append(WORD.sub(lambda w: turn.get(w[0], w[0]), text[at:m.start()]))
        out.append(turned_prose(m[0], turn) if m[0].startswith('//') else m[0])
        at = m.end()
    out.append(WORD.sub(lambda w: turn.get(w[0], w[0]), text[at:]))
    return ''.join(out)


def main(argv):
    check = '--check' in argv
    rest = [a for a in argv if a != '--check']
    root = pathlib.Path(rest[0] if rest else '.').resolve()
    turn, declared, crates = table(root)
    together = collections.defaultdict(set)
    for name in declared:
        together[turn.get(name, name)].add(name)
    for new, olds in sorted(together.items()):
        if len(olds) > 1:
            print('together:', new, '<-', ', '.join(sorted(olds)))
    if check:
        for old, new in sorted(turn.items()):
            print(f'{old}\t{new}')
    for path in files(root):
        text = path.read_text()
        made = turned_antt(text, turn, crates) if path.suffix == '.antt' else turned_rt(text, turn)
        if check:
            words = set(WORD.findall(antt_code(text)))
            for old in sorted(words & set(turn)):
                if turn[old] in words:
                    print('meets:', path.relative_to(root), old, '->', turn[old])
        elif made != text:
            path.write_text(made)
    if not check:
        for path in sorted([root / 'README.md', *root.glob('docs/**/*.md')]):
            text = path.read_text()
            made = turned_prose(text, turn)
            if made != text:
                path.write_text(made)
    print(f'respell: {len(turn)} names')
    return 0


if __name__ == '__main__':
    raise SystemExit(main(sys.argv[1:]))
