; map hash 8 8 16
; program get read 4 v10_key_longer_than_argument.hex
mov64 r2, r1
ldmap r1, 0
call 1
jeq r0, 0, missing
ldxdw r0, [r0+0]
missing:
exit
