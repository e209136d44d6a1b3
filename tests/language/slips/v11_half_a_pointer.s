; map array 8 16
; program first read 4 v11_half_a_pointer.hex
stxdw [r10-8], r1
ldxw r2, [r10-8]
ldxw r0, [r2+0]
exit
