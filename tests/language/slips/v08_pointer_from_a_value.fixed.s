; map hash 4 8 16
; program next read 4 v08_pointer_from_a_value.hex
mov64 r2, r1
ldmap r1, 0
call 1
jeq r0, 0, missing
mov64 r2, r0
ldmap r1, 0
call 1
jeq r0, 0, missing
ldxdw r0, [r0+0]
missing:
exit
