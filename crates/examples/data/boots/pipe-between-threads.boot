synthesis 1
# A line goes through a pipe from one thread to another, which waits for it.
# boot 1 10, status 0
pipe p 0 1
thread a
hear p
thread b
say p hi
