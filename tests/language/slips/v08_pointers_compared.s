; map hash 4 8 16
; program same read 8 v08_pointers_compared.hex
mov64 r6, r1
mov64 r2, r6
ldmap r1, 0
call 1
mov64 r7, r0
mov64 r2, r6
add64 r2, 4
ldmap r1, 0
call 1
mov64 r1, r0
mov64 r0, 1
jeq r1, r7, done
mov64 r0, 0
done:
exit
