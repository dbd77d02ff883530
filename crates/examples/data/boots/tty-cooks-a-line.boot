synthesis 1
# What is typed is cooked: the byte 7F takes back the one before it. The line is put in the line queue and in the
# screen queue.
# boot 1 10, status 0
tty t
type t ab\7Fc\0A
