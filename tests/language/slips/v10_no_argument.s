; map array 8 16
; program first read 0 v10_no_argument.hex
ldxw r0, [r1+0]
exit
