synthesis 1
# A poke with no line to move is done, and one with a line moves it before the next step. A line that is said behind the
# poke stays where it is.
# boot 1 2, status 4
# boot 1 5, status 4
queue in
queue out
pump p in out
thread a
poke p
say in hi
poke p
hear out
hear out
