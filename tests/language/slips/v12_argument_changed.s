; map array 8 16
; program next read 4 v12_argument_changed.hex
ldxw r2, [r1+0]
add64 r2, 1
stxw [r1+0], r2
mov64 r2, r1
ldmap r1, 0
call 1
jeq r0, 0, missing
ldxdw r0, [r0+0]
missing:
exit
