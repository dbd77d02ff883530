synthesis 1
# A thread is stopped, and goes on once it is started again.
# boot 1 20, status 0
gauge g
thread a
thread b
pass
more a
stop b
tick g 5
start b
