; map array 8 16
; program second read 8 v08_computed_address.hex
mov64 r2, 0
add64 r2, 4
ldxw r0, [r2+0]
exit
