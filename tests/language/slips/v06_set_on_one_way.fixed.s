; map array 8 16
; program fee read 4 v06_set_on_one_way.hex
ldxw r0, [r1+0]
mov64 r3, 0
jlt r0, 100, small
mov64 r3, 5
small:
add64 r0, r3
exit
