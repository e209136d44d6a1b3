; map hash 16 8 16
; program get read 16 v15_long_key_as_a_number.hex
ldxdw r2, [r1+0]
ldmap r1, 0
call 1
jeq r0, 0, missing
ldxdw r0, [r0+0]
missing:
exit
