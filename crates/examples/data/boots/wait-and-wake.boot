synthesis 1
# A thread waits in a wait queue till another wakes all who wait there.
# boot 1 10, status 0
queue out
thread a
wait 0
say out x
thread b
wake 0
