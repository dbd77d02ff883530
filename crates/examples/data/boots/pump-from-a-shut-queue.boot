synthesis 2
# A pump from a shut queue with nothing left takes nothing.
# boot 1 2, status 0
queue in
queue out
pump p in out
thread a
close in
poke p
