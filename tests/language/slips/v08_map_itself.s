; map array 8 16
; program peek read 4 v08_map_itself.hex
ldmap r1, 0
ldxdw r0, [r1+0]
exit
