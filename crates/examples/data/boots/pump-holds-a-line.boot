synthesis 1
# A pump holds a line that finds no room, and takes no other before it is put.
# boot 1 4, status 4
# boot 1 5, status 4
# boot 1 7, status 4
# boot 1 8, status 0
queue in
queue out
pump p in out
thread a
say in hi
say in
say out abcdefghijklmnopqrstuvwxyzabcdefghijklmnopqrstuvwxyzabcdefghijk
poke p
poke p
hear out
poke p
poke p
