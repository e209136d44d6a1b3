; map array 8 16
; map hash 4 8 16
; program get read 4 v16_third_of_two_maps.hex
mov64 r2, r1
ldmap r1, 2
call 1
jeq r0, 0, missing
ldxdw r0, [r0+0]
missing:
exit
