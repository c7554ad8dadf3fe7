# Functions that differ only in a type, a size or a constant: twins.py [ROOT]
#
# Every function of crates/*/src/*.rt is read with its head, contract and body. Names of formats, samples, widths and
# literals are replaced by one mark; two functions are twins where what is left has the same words in at least nine of
# ten places. Each group counts as one function and its twins; the programs of tests are counted apart.
import difflib, glob, os, re, sys

root = sys.argv[1] if len(sys.argv) > 1 else '.'
MARKS = [(r'(?<![A-Za-z])(?:f32|f64|i16|i32|i64|u16|u32|u64|usize)(?![A-Za-z])', 'N'),
         (r'_?(?:f32|q15|F32|Q15)', ''), (r'\b[0-9][0-9_.]*(?:e-?[0-9]+)?(?:f32|f64|i64|usize|u32)?\b', '0'), (r'\bnan\b|\(pos 0\)', 'Z')]

def functions(path):
    lines = open(path, encoding='utf-8').read().split('\n')
    at, depth, held = 0, 0, []
    while at < len(lines):
        head = re.match(r'( *)(?:pub(?:\([a-z]+\))? )?(?:const |unsafe |extern "C" )*fn (\w+)', lines[at])
        if head:
            end = at
            while lines[end] != head.group(1) + '}':
                end += 1
            yield head.group(2), '\n'.join(lines[at:end + 1]), at + 1
            at = end
        at += 1

def plain(text):
    for pattern, mark in MARKS:
        text = re.sub(pattern, mark, text)
    return re.findall(r'\w+|\S', text)

found = []
for path in sorted(glob.glob(os.path.join(root, 'crates/*/src/*.rt'))):
    for name, text, line in functions(path):
        if len(plain(text)) >= 12:
            found.append((os.path.relpath(path, root), line, name, plain(text)))

kinds = {'product': [], 'C': [], 'tests': []}
for entry in found:
    crate = entry[0].split('/')[1]
    kinds['tests' if crate.startswith('test_') else 'C' if crate.startswith('c_') else 'product'].append(entry)
for kind, entries in kinds.items():
    groups = []
    for entry in entries:
        for group in groups:
            a, b = group[0][3], entry[3]
            if abs(len(a) - len(b)) * 10 <= max(len(a), len(b)):
                match = difflib.SequenceMatcher(None, a, b, autojunk=False)
                if match.quick_ratio() >= 0.9 and match.ratio() >= 0.9:
                    group.append(entry)
                    break
        else:
            groups.append([entry])
    twins = [g for g in groups if len(g) > 1]
    print(f'{kind}: {len(entries)} functions, {sum(len(g) - 1 for g in twins)} twins of {len(twins)}')
    if '-v' in sys.argv:
        for g in twins:
            print('   ', ', '.join(f'{p}:{l} {n}' for p, l, n, _ in g))
