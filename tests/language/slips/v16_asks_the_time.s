; map array 8 16
; program stamp update 4 v16_asks_the_time.hex
mov64 r6, r1
call 5
mov64 r7, r0
mov64 r2, r6
ldmap r1, 0
call 1
jeq r0, 0, missing
stxdw [r0+0], r7
missing:
mov64 r0, 0
exit
