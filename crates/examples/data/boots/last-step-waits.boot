synthesis 2
# A thread whose last step waits has all its steps done, and is retired in its next turn, as is one without a step. A
# gauge is the sum of its ticks modulo 2^64, and no other gauge moves.
# boot 1 4, status 4
# boot 1 6, status 0
gauge g
gauge h
thread a
wait 7
thread b
tick g 18446744073709551615
tick g 5
wake 7
thread c
