synthesis 1
# Three threads say lines to one queue, and three hear them, on four processors. All lines are the same, so whoever
# hears which, the report is the same.
# boot 4 2000, status 0, at most 3 tries
queue q
thread a
say q hi
say q hi
say q hi
say q hi
say q hi
say q hi
say q hi
say q hi
say q hi
say q hi
say q hi
say q hi
say q hi
say q hi
say q hi
say q hi
thread b
say q hi
say q hi
say q hi
say q hi
say q hi
say q hi
say q hi
say q hi
say q hi
say q hi
say q hi
say q hi
say q hi
say q hi
say q hi
say q hi
thread c
say q hi
say q hi
say q hi
say q hi
say q hi
say q hi
say q hi
say q hi
say q hi
say q hi
say q hi
say q hi
say q hi
say q hi
say q hi
say q hi
thread x
hear q
hear q
hear q
hear q
hear q
hear q
hear q
hear q
hear q
hear q
hear q
hear q
hear q
hear q
hear q
hear q
thread y
hear q
hear q
hear q
hear q
hear q
hear q
hear q
hear q
hear q
hear q
hear q
hear q
hear q
hear q
hear q
hear q
thread z
hear q
hear q
hear q
hear q
hear q
hear q
hear q
hear q
hear q
hear q
hear q
hear q
hear q
hear q
hear q
hear q
