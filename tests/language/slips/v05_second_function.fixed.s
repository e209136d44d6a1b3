; map array 8 16
; program first read 8 v05_second_function.hex
ldxw r0, [r1+0]
exit
