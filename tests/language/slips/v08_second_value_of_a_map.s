; map array 8 16
; program second read 0 v08_second_value_of_a_map.hex
stw [r10-4], 1
mov64 r2, r10
add64 r2, -4
ldmap r1, 0
add64 r1, 8
call 1
jeq r0, 0, missing
ldxdw r0, [r0+0]
missing:
exit
