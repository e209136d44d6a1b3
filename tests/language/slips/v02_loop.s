; map array 8 16
; program sum read 4 v02_loop.hex
mov64 r0, 0
mov64 r2, 4
again:
ldxb r3, [r1+0]
add64 r0, r3
add64 r1, 1
sub64 r2, 1
jne r2, 0, again
exit
