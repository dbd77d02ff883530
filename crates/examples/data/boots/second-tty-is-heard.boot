synthesis 3
# Of two ttys only the second is typed into, and heard. The device types in a thread of its own, which the turns may
# leave behind.
# boot 1 1000000, status 0, at most 3 tries
tty t
tty u
type u hx\7Fi\0A
thread v
hear u.line
hear u.screen
