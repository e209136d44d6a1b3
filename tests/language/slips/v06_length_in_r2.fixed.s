; map array 8 16
; program first read 4 v06_length_in_r2.hex
mov64 r0, 0
mov64 r2, 4
jlt r2, 4, short
ldxw r0, [r1+0]
short:
exit
