; map hash 4 8 16
; program set update 12 v06_lost_at_a_call.hex
mov64 r2, r1
mov64 r6, r2
ldmap r1, 0
call 1
jeq r0, 0, missing
ldxdw r3, [r6+4]
stxdw [r0+0], r3
missing:
mov64 r0, 0
exit
