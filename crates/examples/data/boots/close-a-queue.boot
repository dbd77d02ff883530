synthesis 2
# What is said before a close is heard, and what is said behind it is put nowhere. The last hear is done, and hears
# nothing.
# boot 1 20, status 0
queue q
thread a
say q x
close q
say q y
hear q
hear q
