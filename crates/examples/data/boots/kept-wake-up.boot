synthesis 1
# No wake-up is lost at a pipe: the reader waits with a ticket, which it reads before it finds the pipe empty.
# boot 1 12, status 0
pipe q 3 4
thread reader
hear q
thread writer
pass
pass
say q x
