; map hash 4 8 16
; program same read 8 v08_pointers_compared.hex
ldxw r2, [r1+0]
ldxw r3, [r1+4]
mov64 r0, 1
jeq r2, r3, done
mov64 r0, 0
done:
exit
