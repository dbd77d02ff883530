synthesis 1
# Three keys and a rest: a line for each, an empty line and a line of one byte.
# boot 1 19, status 0
queue in
queue rest
queue qa
queue qb
queue qc
switch s in rest a qa b qb c qc
thread t
say in a1
say in b2
say in
say in xab
say in c
say in a3
poke s
poke s
poke s
poke s
poke s
poke s
poke s
hear qa
hear qa
hear qb
hear qc
hear rest
hear rest
