; map hash 4 8 16
; program put update 12 v10_argument_too_short.hex
ldxdw r3, [r1+4]
stxdw [r10-8], r3
mov64 r2, r1
mov64 r3, r10
add64 r3, -8
ldmap r1, 0
mov64 r4, 0
call 2
exit
