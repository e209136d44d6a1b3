; map hash 4 16 16
; program put update 16 v11_padding.hex
ldxdw r3, [r1+4]
stxdw [r10-16], r3
ldxw r3, [r1+12]
stxw [r10-8], r3
mov64 r2, r1
mov64 r3, r10
add64 r3, -16
ldmap r1, 0
mov64 r4, 0
call 2
exit
