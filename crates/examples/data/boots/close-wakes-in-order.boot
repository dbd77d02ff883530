synthesis 2
# A close of a pipe wakes first those who wait to hear, and then those who wait to say, of each the lowest first,
# whichever came first.
# boot 1 8, status 4
# boot 1 17, status 0
pipe p 0 1
queue log
thread a
pass
pass
close p
hear log
hear log
hear log
hear log
thread b
pass
wait 1
say log b
thread c
pass
wait 0
say log c
thread d
wait 0
say log d
thread e
wait 1
say log e
