; map array 8 16
; program first read 4 v10_before_the_argument.hex
ldxw r0, [r1-4]
exit
