synthesis 3
# A line goes by the pump to a pipe, and by the switch behind it back or on.
# boot 1 8, status 0
queue a
pipe b 0 1
queue c
pump p a b
switch s b c x a y b
thread v
say a x
say a z
poke p
poke p
poke s
poke s
hear a
hear c
