; map array 8 16
; program first read 4 v13_pointer_between_cells.hex
stxdw [r10-12], r1
ldxdw r2, [r10-12]
ldxw r0, [r2+0]
exit
