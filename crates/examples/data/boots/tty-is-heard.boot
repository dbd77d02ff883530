synthesis 1
# What is typed is heard once cooked, in the line queue and in the screen queue. The device types in a thread of its
# own, which the turns may leave behind.
# boot 1 1000000, status 0, at most 3 tries
tty t
type t ab\7Fc\0A
thread a
hear t.line
hear t.screen
