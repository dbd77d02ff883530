synthesis 2
# A hear of an empty pipe waits, and a say wakes it.
# boot 1 1, status 4
# boot 1 2, status 4
# boot 1 3, status 0
pipe p 2 3
thread a
hear p
thread b
say p z
