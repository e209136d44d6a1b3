; map array 8 16
; program peek read 4 v14_no_test.hex
mov64 r2, r1
ldmap r1, 0
call 1
ldxdw r0, [r0+0]
exit
