"""Counts in src/ the places that docs/DESIGN-PASS.md goes through: `tools/places.py COMMIT`, and with -l each place."""
import collections
import re
import subprocess
import sys

POINTS = [
    ('1', 'a refusal as a number', r'^ *(pub )?(refusal: u8,|.*why: &mut u8)|fn [a-z_]*refus[a-z_]*\(.*-> u8|Refused\(.*u8'),
    ('1', 'a variant for nothing', r'^    (Nothing|More|Unknown),'),
    ('1', 'a constant for nothing', r'const (NO_[A-Z]*|NONE[A-Z_]*|EMPTY|DARK)\b'),
    ('1', 'a flag in a struct', r'^    (pub |pub\(crate\) )?[a-z]+: bool,$'),
    ('1', 'a comment that 0 stands for none', r'0 where (it|none|no|the|nothing)'),
    ('1', 'a number with a name', r'^(pub )?const [A-Z_]+: (u8|u16) = (0x|[0-9])'),
    ('3', 'a loop over a range', r'^ +for [a-z_]+ in .*\.\.'),
    ('3', 'a while or a loop', r'^ +(while|loop)'),
    ('4', 'a conversion by `as`', r' as (u8|u16|u32|u64|usize)\b'),
    ('4', 'a function of std::num', r'std::num::'),
    ('4', 'equality by hand', r'octets::same|fn (same|alike|matches)\b'),
    ('4', 'printing by hand', r'say::(text|decimal|octets|word)\(|text\(rt'),
    ('7', 'a closure, dyn or fn pointer', r'\bdyn |impl Fn|: Fn|&?\|[a-z_, ]+\| '),
]
FACTS = (r'\(?length [a-z]+\.(?:now|old) ≡ [a-z_]+|[a-z_]+ ≤ length [a-z]+\.(?:now|old)|\([a-z]+ ≤ plans_most\)'
         r'|k_fits \(layout_at l\) k ≡ true|Room [a-z.]+ text\.old')
TOGETHER = [('kept', 'book', 'out'), ('rt', 'kept', 'book', 'out'), ('kept', 'book', 'out', 'text'), ('out', 'at'),
            ('seq', 'addr'), ('l', 'k'), ('code', 'requested')]
FUNCTION = re.compile(r'^ *(?:pub(?:\(crate\))? )?fn (\w+)(?:<[^>]*>)?\(([^)]*(?:\([^)]*\)[^)]*)*)\)(?: -> ([^\n{]*))?', re.M)


def git(*words):
    return subprocess.check_output(('git',) + words, text=True)


def sources(commit):
    for path in git('ls-tree', '-r', '--name-only', commit, 'crates').split():
        if '/src/' in path and path.endswith('.rt') and not path.endswith('diagram_calls/src/rows.rt'):
            yield path[len('crates/'):], git('show', commit + ':' + path)


def parameters(text):
    return [p.strip() for p in re.split(r',(?![^()<>]*[)>])', text) if p.strip()]


def main():
    show = '-l' in sys.argv
    commit = [w for w in sys.argv[1:] if w != '-l'][0]
    files = list(sources(commit))
    for point, name, pattern in POINTS:
        found = [f'{path}:{n}: {line.strip()}' for path, text in files for n, line in enumerate(text.split('\n'), 1)
                 if not line.lstrip().startswith('//') or '0 where' in pattern if re.search(pattern, line)]
        print(f'{point}  {len(found):4}  {name}')
        for line in found if show else ():
            print('          ', line)
    alike, together, facts = collections.defaultdict(list), collections.Counter(), collections.Counter()
    for path, text in files:
        for name, inside, result in FUNCTION.findall(text):
            types = tuple(p.split(':', 1)[-1].strip() for p in parameters(inside))
            alike[path, types, result].append(name)
            names = {p.split(':')[0].replace('mut ', '').strip() for p in parameters(inside)}
            together.update(group for group in TOGETHER if set(group) <= names)
        facts.update(re.sub(r'\.(now|old)', '', fact).strip('(') for fact in re.findall(FACTS, text))
    groups = [(path, names) for (path, _, _), names in alike.items() if len(names) > 1]
    print(f'2  {len(groups):4}  functions of one file with the same types, {sum(len(n) for _, n in groups)} in all')
    for path, names in groups if show else ():
        print('          ', path, *names)
    for fact, n in facts.most_common():
        if n > 2:
            print(f'5  {n:4}  contracts with {fact}')
    for group, n in together.most_common():
        print(f'5  {n:4}  functions with the parameters', *group)


main()
