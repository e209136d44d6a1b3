mov64 r2, r1
ldmap r1, 0
call 1
jeq r0, 0, missing
ldxw r0, [r0+0]
exit
missing:
mov64 r0, -2
exit
