; map array 8 16
; program first read 0 v07_stack_end_moved.hex
stdw [r10-8], 0
add64 r10, -8
mov64 r2, r10
ldmap r1, 0
call 1
jeq r0, 0, missing
ldxdw r0, [r0+0]
missing:
exit
