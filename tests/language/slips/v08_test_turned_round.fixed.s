; map array 8 16
; program peek read 4 v08_test_turned_round.hex
mov64 r2, r1
ldmap r1, 0
call 1
jeq r0, 0, missing
ldxdw r0, [r0+0]
exit
missing:
mov64 r0, -1
exit
