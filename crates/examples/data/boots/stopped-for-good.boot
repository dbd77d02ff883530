synthesis 1
# A thread that is stopped and never started is parked, and does no step.
# boot 1 20, status 4
gauge g
thread a
thread b
pass
more a
stop b
tick g 5
