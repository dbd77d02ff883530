synthesis 1
# A lost wake-up: the reader waits without a ticket, after the writer's wake, and waits for good beside its line.
# boot 1 12, status 4
queue q
thread reader
pass
pass
wait 3
hear q
thread writer
say q x
wake 3
