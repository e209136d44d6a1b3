; map array 8 16
; program bump update 4 v05_null_case.hex
mov64 r2, r1
ldmap r1, 0
call 1
jeq r0, 0, missing
ldxdw r6, [r0+0]
add64 r6, 1
stxdw [r0+0], r6
mov64 r0, r6
exit
missing:
mov64 r0, -1
exit
