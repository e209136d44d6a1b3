; map array 8 16
; program sum read 8 v11_no_first_value.hex
stdw [r10-8], 0
ldxdw r0, [r10-8]
ldxw r2, [r1+0]
add64 r0, r2
ldxw r2, [r1+4]
add64 r0, r2
exit
