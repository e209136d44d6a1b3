mov64 r7, r1
mov64 r2, r1
ldmap r1, 0
call 1
jeq r0, 0, +6
ldxw r8, [r7+4]
ldxdw r6, [r0+0]
add64 r6, r8
stxdw [r0+0], r6
mov64 r0, r6
exit
mov64 r0, -1
exit
