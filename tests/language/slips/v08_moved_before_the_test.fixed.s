; map array 16 16
; program second read 4 v08_moved_before_the_test.hex
mov64 r2, r1
ldmap r1, 0
call 1
jeq r0, 0, missing
add64 r0, 8
ldxdw r0, [r0+0]
missing:
exit
