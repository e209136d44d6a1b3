; map array 8 16
; program bump read 4 v18_store_in_a_read.hex
mov64 r2, r1
ldmap r1, 0
call 1
jeq r0, 0, missing
ldxdw r1, [r0+0]
add64 r1, 1
stxdw [r0+0], r1
missing:
mov64 r0, 0
exit
