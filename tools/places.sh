#!/usr/bin/env bash
# Counts of forms in the sources at a commit: where to look for places that an older form left.
set -euo pipefail
cd "$(dirname "$0")/.."
C=${1:-HEAD}
g() { git grep -nE "$1" $C -- 'crates/*/src/*.rt' | sed "s/^$C:crates\///"; }
n() { printf '%-28s %s\n' "$1" "$(g "$2" | wc -l)"; }
n enums '^ *(pub )?enum '
n 'fn -> bool' '\) -> bool'
n 'u32/usize consts' '^ *(pub )?const [A-Z_]+: (u32|usize)'
n 'numeral arms' '^ +[0-9]+( \| [0-9]+)* => '
n 'while' '^ *(.[a-z]+: )?while '
n 'loop' '^ *(.[a-z]+: )?loop '
n 'for in a range' 'for .* in [^ ]*\.\.'
n 'let .. else return None/false' '^ +return (None|false|Err\(NoRoom\));'
n 'From/TryFrom/Display impls' '^impl.*(From<|Display)'
n 'derive PartialEq' 'derive.*PartialEq'
n 'matches!' 'matches!\('
n 'same_word/key/at calls' 'same_(word|key|at)\('
n 'impl blocks' '^impl'
n 'traits' '^(pub )?trait '
n 'generic fns' 'fn [a-z_]+<[A-Z]'
n 'closures' '\|[a-z_, &()]*\| '
n 'chains' '\.(iter|chunks_exact|copied|map|filter|take_while|position|any|all|find|zip|rev|fold|enumerate|skip|take|sum|max|min|count)\('
n '?' '\?[;)]'
python3 - "$C" <<'PY'
# parameters that travel together: by crate, groups that stand in three or more parameter lists, the largest first
import collections, itertools, re, subprocess, sys
commit = sys.argv[1]
names = subprocess.run(['git', 'ls-tree', '-r', '--name-only', commit, 'crates'], capture_output=True, text=True).stdout.split()
lists = collections.defaultdict(list)
for name in names:
    if '/src/' in name and name.endswith('.rt'):
        text = subprocess.run(['git', 'show', f'{commit}:{name}'], capture_output=True, text=True).stdout
        for m in re.finditer(r'\bfn \w+(?:<[^>]*>)?\s*\(([^)]*)\)', text):
            lists[name.split('/')[1]].append([p.split(':')[0].strip() for p in m.group(1).split(',') if p.strip()])
for crate, ps in lists.items():
    count = collections.Counter(t for p in ps for k in (2, 3, 4) for t in itertools.combinations(p, k))
    groups = [(t, n) for t, n in count.items() if n >= 3]
    groups = [(t, n) for t, n in groups if not any(set(t) < set(u) and m >= n for u, m in groups)]
    groups.sort(key=lambda g: -g[1] * len(g[0]))
    if groups:
        print(f'{crate}, {len(ps)} functions: ' + '; '.join(f'{" ".join(t)} {n} times' for t, n in groups[:4]))
PY
