synthesis 2
# A say in a shut queue is done, and puts nothing; a hear of one with nothing left is done, and hears nothing.
# boot 1 2, status 4
# boot 1 6, status 0
queue q
thread a
say q x
close q
say q x
thread b
hear q
hear q
hear q
