synthesis 2
# Whoever waits to hear at a pipe that is shut goes on: the step is done, and hears nothing.
# boot 1 3, status 0
pipe p 4 5
thread a
hear p
thread b
close p
