synthesis 2
# A stopped thread is parked, and its signals are delivered once it goes on.
# boot 1 5, status 4
# boot 1 7, status 0
thread a
thread b
pass
pass
more a
signal b 2
stop b
signal b 5
start b
