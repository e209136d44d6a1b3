; map array 8 16
; program peek read 4 v15_key_as_a_number.hex
ldxw r2, [r1+0]
ldmap r1, 0
call 1
jeq r0, 0, missing
ldxdw r0, [r0+0]
missing:
exit
