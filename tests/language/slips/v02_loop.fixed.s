; map array 8 16
; program sum read 4 v02_loop.hex
mov64 r0, 0
ldxb r3, [r1+0]
add64 r0, r3
add64 r1, 1
ldxb r3, [r1+0]
add64 r0, r3
add64 r1, 1
ldxb r3, [r1+0]
add64 r0, r3
add64 r1, 1
ldxb r3, [r1+0]
add64 r0, r3
add64 r1, 1
exit
