synthesis 1
# A thread that nobody wakes still waits when the turns are over.
# boot 1 10, status 4
queue out
thread a
wait 0
say out x
