; map hash 4 8 16
; program link update 8 v13_pointer_in_a_value.hex
mov64 r6, r1
mov64 r2, r6
ldmap r1, 0
call 1
jeq r0, 0, missing
mov64 r7, r0
mov64 r2, r6
add64 r2, 4
ldmap r1, 0
call 1
jeq r0, 0, missing
ldxw r3, [r6+4]
stxdw [r7+0], r3
mov64 r0, 1
missing:
exit
