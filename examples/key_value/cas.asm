mov64 r6, r1            ; keep the argument: a call forgets r1 to r5
mov64 r2, r1
ldmap r1, 0
call 1
jeq r0, 0, missing
ldxw r1, [r0+0]         ; what stands there
ldxw r2, [r6+4]         ; what the caller takes to stand there
jne r1, r2, other
ldxw r1, [r6+8]
stxw [r0+0], r1         ; into the map, by the pointer
mov64 r0, 0
exit
other:
mov64 r0, 1
exit
missing:
mov64 r0, -2
exit
