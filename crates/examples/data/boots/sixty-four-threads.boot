synthesis 3
# As many threads as there may be in version 3, each with a step.
# boot 1 200, status 0
thread t0
pass
thread t1
pass
thread t2
pass
thread t3
pass
thread t4
pass
thread t5
pass
thread t6
pass
thread t7
pass
thread t8
pass
thread t9
pass
thread t10
pass
thread t11
pass
thread t12
pass
thread t13
pass
thread t14
pass
thread t15
pass
thread t16
pass
thread t17
pass
thread t18
pass
thread t19
pass
thread t20
pass
thread t21
pass
thread t22
pass
thread t23
pass
thread t24
pass
thread t25
pass
thread t26
pass
thread t27
pass
thread t28
pass
thread t29
pass
thread t30
pass
thread t31
pass
thread t32
pass
thread t33
pass
thread t34
pass
thread t35
pass
thread t36
pass
thread t37
pass
thread t38
pass
thread t39
pass
thread t40
pass
thread t41
pass
thread t42
pass
thread t43
pass
thread t44
pass
thread t45
pass
thread t46
pass
thread t47
pass
thread t48
pass
thread t49
pass
thread t50
pass
thread t51
pass
thread t52
pass
thread t53
pass
thread t54
pass
thread t55
pass
thread t56
pass
thread t57
pass
thread t58
pass
thread t59
pass
thread t60
pass
thread t61
pass
thread t62
pass
thread t63
pass
