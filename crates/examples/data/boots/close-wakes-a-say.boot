synthesis 2
# Whoever waits to say at a pipe that is shut goes on: the step is done, and puts nothing. What was put before is
# heard.
# boot 1 3, status 4
# boot 1 7, status 0
pipe p 4 5
thread a
say p abcdefghijklmnopqrstuvwxyzabcdefghijklmnopqrstuvwxyzabcdefghijk
say p y
thread b
pass
close p
hear p
hear p
