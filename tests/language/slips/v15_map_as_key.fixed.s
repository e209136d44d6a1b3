; map array 8 16
; program peek read 4 v15_map_as_key.hex
mov64 r2, r1
ldmap r1, 0
call 1
jeq r0, 0, missing
ldxdw r0, [r0+0]
missing:
exit
