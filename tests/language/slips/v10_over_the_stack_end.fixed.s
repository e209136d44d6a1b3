; map array 8 16
; program first read 0 v10_over_the_stack_end.hex
stdw [r10-8], 0
mov64 r2, r10
add64 r2, -8
ldmap r1, 0
call 1
jeq r0, 0, missing
ldxdw r0, [r0+0]
missing:
exit
