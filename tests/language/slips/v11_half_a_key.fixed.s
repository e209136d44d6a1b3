; map hash 8 8 16
; program get read 4 v11_half_a_key.hex
ldxw r3, [r1+0]
stxw [r10-8], r3
stw [r10-4], 0
mov64 r2, r10
add64 r2, -8
ldmap r1, 0
call 1
jeq r0, 0, missing
ldxdw r0, [r0+0]
missing:
exit
