synthesis 3
# A start is done whether the thread is stopped or not; one that waits is stopped, and started, where it waits.
# boot 1 4, status 4
# boot 1 8, status 4
# boot 1 10, status 0
thread a
thread b
wait 15
pass
more a
start b
stop b
start b
stop b
stop b
wake 15
start b
