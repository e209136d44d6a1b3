; map hash 16 8 16
; program get read 16 v15_long_key_as_a_number.hex
ldxdw r2, [r1+0]
ldxdw r3, [r1+8]
stxdw [r10-16], r2
stxdw [r10-8], r3
mov64 r2, r10
add64 r2, -16
ldmap r1, 0
call 1
jeq r0, 0, missing
ldxdw r0, [r0+0]
missing:
exit
