#!/usr/bin/env python3
"""unfold.py: names, in crates/model/specs/Cases.antt, all definitions that the computation of the cases opens.

Run at the repository's root after a change of the definitions. It rewrites the lines `use MODULE as NAME-` and the one long
`unfolding` line, from the definitions of words, account, layout, map_store and model.
"""
import re

CASES = 'crates/model/specs/Cases.antt'
MODEL = ['Reference', 'Content', 'View', 'Kept', 'Rules', 'Calls', 'Slots', 'Replies', 'Model', 'Refusals', 'Terms', 'Step',
         'Opening', 'History', 'Demand3', 'Callsheet']


def unfoldable(path):
    with open(path) as f:
        return [m.group(1) for m in re.finditer(r'^\s*unfoldable pub (?!use )(\S+)', f.read(), re.M)]


def everything():
    modules = [('crates/words/specs/Word.antt', 'Rattle.words.specs.Word', 'Words'),
               ('crates/map_store/specs/Store.antt', 'Rattle.map_store.specs.Store', 'Maps'),
               ('crates/account/specs/Account.antt', 'Rattle.account.specs.Account', 'Account-'),
               ('crates/layout/specs/Layout.antt', 'Rattle.layout.specs.Layout', 'Layout-')]
    modules += [('crates/model/specs/%s.antt' % m, 'Rattle.model.specs.%s' % m, m + '-') for m in MODEL]
    uses = ['use %s as %s' % (module, name) for _, module, name in modules]
    names = ['%s.%s' % (name, n) for path, _, name in modules for n in unfoldable(path)]
    return uses, names


def rewrite(path):
    uses, names = everything()
    with open(path) as f:
        lines = f.read().split('\n')
    known = set(uses)
    at = next(i for i, l in enumerate(lines) if l in known)
    lines = [l for l in lines if l not in known]
    lines[at:at] = uses
    i = next(i for i, l in enumerate(lines) if l.startswith('unfolding ') and 'Words.' in l)
    own = [n for n in lines[i].split()[1:] if not re.match(r'(Words|Maps|\w+-)\.', n)]
    lines[i] = ' '.join(['unfolding'] + own + names)
    with open(path, 'w') as f:
        f.write('\n'.join(lines))


if __name__ == '__main__':
    rewrite(CASES)
