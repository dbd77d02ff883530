synthesis 2
# The most turns that a boot may have: the alarm of the last turn's tick fires, and the one behind it is left.
# boot 1 100000000, status 0
thread a
alarm 100000000 a 3
alarm 100000001 a 4
