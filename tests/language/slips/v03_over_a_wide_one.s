; map array 8 16
; program deadline read 8 v03_over_a_wide_one.hex
ldxdw r0, [r1+0]
jne r0, 0, +1
lddw r0, 5000000000
exit
