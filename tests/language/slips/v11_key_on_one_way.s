; map array 8 16
; program peek read 4 v11_key_on_one_way.hex
ldxw r3, [r1+0]
jge r3, 16, look
stxw [r10-4], r3
look:
mov64 r2, r10
add64 r2, -4
ldmap r1, 0
call 1
jeq r0, 0, missing
ldxdw r0, [r0+0]
missing:
exit
