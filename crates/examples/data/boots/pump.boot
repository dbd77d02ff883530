synthesis 1
# The pump moves a line from one queue to the other for each poke.
# boot 1 10, status 0
# boot 2 1000, status 0
queue in
queue out
pump p in out
thread a
say in hi
poke p
hear out
