synthesis 1
# An alarm at tick 2 fires, and its signal 3 is delivered to the thread.
# boot 1 10, status 0
thread a
pass
pass
pass
pass
pass
alarm 2 a 3
