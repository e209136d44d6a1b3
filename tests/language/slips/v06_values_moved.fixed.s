; map hash 4 8 16
; program copy update 16 v06_values_moved.hex
mov64 r6, r1
mov64 r2, r6
ldmap r1, 0
call 1
jeq r0, 0, missing
mov64 r7, r0
mov64 r2, r6
add64 r2, 4
mov64 r3, r6
add64 r3, 8
mov64 r4, 0
ldmap r1, 0
call 2
mov64 r2, r6
ldmap r1, 0
call 1
jeq r0, 0, missing
mov64 r7, r0
ldxdw r0, [r7+0]
exit
missing:
mov64 r0, -1
exit
