; map array 8 16
; program last read 8 v09_past_the_end.hex
add64 r1, 12
ldxw r0, [r1-8]
exit
