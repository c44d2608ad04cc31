#!/usr/bin/env python3
"""Writes specs/Evaluate.antt: the list of every `unfoldable` definition that `answer` is made of."""
import re, textwrap
d='crates/model/specs/'
skip={'SplitMix64','Jylanki','Evaluate','FileOf','Stars','Plans','Endings'}
order=[l.split()[-1] for l in open(d+'Lib.antt') if l.startswith('pub mod')]
order=[m for m in order if m not in skip]
names={m:re.findall(r'^\s*unfoldable pub (\S+) :',open(d+m+'.antt').read(),re.M) for m in order}
out='''-- The definition made to compute: whoever says `unfolding evaluate` unfolds every definition that `answer` is made of.
-- The definitions themselves unfold nothing, so that a proof which opens one of them sees its callees by name.
use Rattle.std.specs.Prelude.{ℕ, List}
use Rattle.std.specs.Float.Ieee.{add, mul, div, lt, of_int, to_bits}
'''
base=re.findall(r'^\s*unfoldable pub (\S+) :',open('crates/lists/specs/Base.antt').read(),re.M)
out+="use Rattle.lists.specs.Base.{%s}\n"%', '.join(base)
for m in order:
    if names[m]: out+="use Rattle.model.specs.%s.{%s}\n"%(m,', '.join((['Answer'] if m=='Answer' else [])+names[m]))
out+="\nunfoldable pub evaluate : List ℕ → Answer\nunfolding "+' '.join(base)+' '+' '.join(n for m in order for n in names[m])+" add mul div lt of_int to_bits\nevaluate bytes = answer bytes\n"
open(d+'Evaluate.antt','w').write(out)
