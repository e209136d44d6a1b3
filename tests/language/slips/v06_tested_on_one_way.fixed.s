; map array 8 16
; program weighed read 5 v06_tested_on_one_way.hex
ldxb r6, [r1+4]
mov64 r2, r1
ldmap r1, 0
call 1
jeq r0, 0, missing
mov64 r7, 1
jeq r6, 0, use
mov64 r7, r6
use:
ldxdw r0, [r0+0]
mul64 r0, r7
exit
missing:
mov64 r0, -1
exit
