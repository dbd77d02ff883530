synthesis 2
# An alarm fires in the turn of its tick, and its signal is delivered then.
# boot 1 1, status 4
# boot 1 2, status 4
thread a
alarm 2 a 3
pass
pass
pass
