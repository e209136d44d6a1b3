; map array 8 16
; program digit read 3 v08_index_added.hex
ldxb r2, [r1+0]
add64 r1, r2
ldxb r0, [r1+1]
exit
