; map hash 4 4 16
; map array 8 16
; program follow read 4 v15_untested_key.hex
mov64 r2, r1
ldmap r1, 0
call 1
mov64 r2, r0
ldmap r1, 1
call 1
jeq r0, 0, missing
ldxdw r0, [r0+0]
exit
missing:
mov64 r0, -1
exit
