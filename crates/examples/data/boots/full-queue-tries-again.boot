synthesis 1
# A say in a full queue is tried again in the thread's next turn.
# boot 1 3, status 4
# boot 1 6, status 0
queue q
thread a
say q abcdefghijklmnopqrstuvwxyzabcdefghijklmnopqrstuvwxyzabcdefghijk
say q
thread b
pass
hear q
hear q
