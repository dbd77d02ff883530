synthesis 1
# A hear of an empty queue is tried again in the thread's next turn. A text of two lines is heard line by line.
# boot 1 3, status 4
# boot 1 6, status 0
queue q
thread a
hear q
hear q
thread b
pass
say q h\0Ai
