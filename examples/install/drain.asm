mov64 r2, r1
ldmap r1, 0
call 1
jeq r0, 0, +4
ldxdw r6, [r0+0]
stdw [r0+0], 0
mov64 r0, r6
exit
mov64 r0, -1
exit
