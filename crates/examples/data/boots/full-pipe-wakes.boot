synthesis 2
# A say in a full pipe waits, and a hear wakes it.
# boot 1 3, status 4
# boot 1 4, status 4
# boot 1 6, status 0
pipe p 0 1
thread a
say p abcdefghijklmnopqrstuvwxyzabcdefghijklmnopqrstuvwxyzabcdefghijk
say p y
thread b
pass
hear p
hear p
