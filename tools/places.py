#!/usr/bin/env python3
"""places.py [FOLDER]: counts, in crates/*/src/*.rt of a tree, the places that docs/DESIGN-PASS.md speaks of.

Each line: the point, what is counted, how many; with --list also where. Twins (point 2) are not counted here.
"""
import re, sys, glob, os, collections

args = [a for a in sys.argv[1:] if not a.startswith('--')]
os.chdir(args[0] if args else '.')
listed = '--list' in sys.argv
sources = {f: open(f).read() for f in sorted(glob.glob('crates/*/src/**/*.rt', recursive=True))}


def rows(pattern):
    for f, text in sources.items():
        for number, line in enumerate(text.split('\n'), 1):
            if not line.lstrip().startswith('//') and re.search(pattern, line):
                yield f'{f}:{number}: {line.strip()}'


def say(point, what, found):
    found = list(found)
    print(f'{point}  {len(found):4}  {what}')
    if listed:
        for row in found:
            print('        ' + row)


OWN = r'^\s*(pub(\(\w+\))? )?enum \w+'
say('1', 'enums of our own', rows(OWN))
say('1', 'parameters and fields that are a number for a kind, a choice or a refusal',
    rows(r'\b(which|number|choice|kind|access): (u8|u16|u32|usize)\b'))
say('1', 'uses of Option and Result', rows(r'\b(Option|Result)<'))
say('3', 'loops by `while`', rows(r'^\s*while '))
say('3', 'counts by hand (`i += 1`, `i -= 1`)', rows(r'^\s*\w+ [+-]= 1;'))
say('3', '`for` loops', rows(r'^\s*for .* in '))
say('3', 'iterator chains', rows(r'\.(iter|iter_mut|chunks\w*|windows)\('))
say('4', 'functions that turn a value into one of another type or into text',
    rows(r'fn (\w*_number|number|from_number|bit_of|wide|word|\w+_at\(n: u32\)|operation_of|action_of|operand_use_of|say_\w+)\b'))
say('4', 'From, TryFrom and Display', rows(r'^impl.* (From|TryFrom|Display|fmt::Display)(<.*>)? for '))
say('4', 'derives', rows(r'#\[derive\('))

# contracts: each fact of a requires, and which functions ask for it
facts = collections.defaultdict(set)
wide = []
for f, text in sources.items():
    starts = [m for m in re.finditer(r'\bfn (\w+)', text)]
    for fn, end in zip(starts, [m.start() for m in starts[1:]] + [len(text)]):
        piece = text[fn.start():end]
        for clause in re.finditer(r'\n\s*requires\s*\w*\s*\{((?:[^{}]|\{[^{}]*\})*)\}', piece):
            for fact in re.split(r'×', clause.group(1)):
                fact = re.sub(r'\s+', ' ', fact).strip()
                if fact.startswith('(') and fact.endswith(')'):
                    fact = fact[1:-1]
                facts[re.sub(r'\.(old|now)\b', '', fact).strip()].add(f'{f}: {fn.group(1)}')
        given = re.match(r'fn \w+(?:<[^>]*>)?\(([^)]*)\)', piece)
        count = len([p for p in given.group(1).split(',') if ':' in p]) if given else 0
        if count > 5:
            wide.append(f'{count}: {f}: {fn.group(1)}')
often = {k: v for k, v in facts.items() if len(v) >= 3}
say('5', 'facts that three or more functions ask for',
    (f'{len(v)}: {k}' for k, v in sorted(often.items(), key=lambda r: -len(r[1]))))
say('5', 'functions that ask for one of them', sorted(set().union(*often.values())) if often else [])
say('5', 'functions of more than five parameters', wide)
say('6', 'arrays of a fixed size, made or declared', rows(r'\[\w+(\(.*\))?; [A-Z_0-9a-z +]+\]'))
say('7', 'parameters that are called (closures, functions)', rows(r'(impl Fn|: Fn\w*\(|dyn Fn|F: Fn)'))
lines = collections.Counter()
for f in glob.glob('crates/*/proofs/**/*.antt', recursive=True):
    lines['files of proofs'] += 1
    lines['lines of proofs'] += len(open(f).read().split('\n')) - 1
for k, v in lines.items():
    print(f'8  {v:4}  {k}')
