; map array 8 16
; program third read 0 v15_constant_key.hex
stw [r10-4], 2
mov64 r2, r10
add64 r2, -4
ldmap r1, 0
call 1
jeq r0, 0, missing
ldxdw r0, [r0+0]
missing:
exit
