; map array 8 16
; program first read 4 v11_stored_over_a_pointer.hex
stxdw [r10-8], r1
stw [r10-4], 0
mov64 r2, r10
add64 r2, -4
ldmap r1, 0
call 1
jeq r0, 0, missing
ldxdw r1, [r10-8]
ldxw r1, [r1+0]
ldxdw r0, [r0+0]
add64 r0, r1
missing:
exit
