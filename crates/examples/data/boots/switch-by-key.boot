synthesis 1
# The switch moves a line for each poke: one that begins with x to out, any other to rest.
# boot 1 10, status 0
queue in
queue out
queue rest
switch s in rest x out
thread a
say in xy
say in yz
poke s
poke s
