synthesis 1
# As many threads as there may be in versions 1 and 2, each with a step.
# boot 1 200, status 0
thread t0
pass
thread t1
pass
thread t2
pass
thread t3
pass
thread t4
pass
thread t5
pass
thread t6
pass
thread t7
pass
thread t8
pass
thread t9
pass
thread t10
pass
thread t11
pass
thread t12
pass
thread t13
pass
thread t14
pass
thread t15
pass
