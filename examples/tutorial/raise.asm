mov64 r6, r1            ; keep the argument: a call forgets r1 to r5
mov64 r2, r1            ; the key is the first 4 bytes of the argument
ldmap r1, 0             ; the store's first map
call 1                  ; look up
jeq r0, 0, missing      ; no such number
ldxdw r1, [r0+0]        ; the old value
ldxdw r2, [r6+4]        ; the new value
jge r1, r2, done        ; the old one is as great: it stays
stxdw [r0+0], r2
mov64 r1, r2
done:
mov64 r0, r1
exit
missing:
mov64 r0, -1
exit
