synthesis 2
# A pump to a shut queue holds its line for good, and takes no other.
# boot 1 10, status 0
queue in
queue out
pump p in out
thread a
say in h
say in i
close out
poke p
poke p
hear in
close in
say in x
hear in
poke p
