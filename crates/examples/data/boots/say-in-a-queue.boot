synthesis 1
# A say puts its text and a line's end in the queue, where nobody takes them.
# boot 1 100, status 0
queue out
thread a
say out hi
