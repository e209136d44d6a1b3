; map array 8 16
; program pick read 4 v06_two_pointers_meet.hex
ldxw r3, [r1+0]
stw [r10-4], 0
mov64 r2, r1
jlt r3, 16, look
mov64 r2, r10
add64 r2, -4
look:
ldmap r1, 0
call 1
jeq r0, 0, missing
ldxdw r0, [r0+0]
missing:
exit
