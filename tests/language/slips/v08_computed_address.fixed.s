; map array 8 16
; program second read 8 v08_computed_address.hex
ldxw r0, [r1+4]
exit
