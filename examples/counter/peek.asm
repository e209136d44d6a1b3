mov64 r2, r1
ldmap r1, 0
call 1
jeq r0, 0, +2
ldxdw r0, [r0+0]
exit
mov64 r0, -1
exit
