mov64 r2, r1            ; the key as it is kept: user and day
ldmap r1, 0
call 1
jeq r0, 0, none
ldxdw r0, [r0+0]
none:
exit                    ; the visits of that day, or 0
