; map array 8 16
; program find read 4 v02_early_exit.hex
ldxb r3, [r1+0]
jne r3, 7, next
found:
mov64 r0, 0
exit
next:
ldxb r3, [r1+1]
jeq r3, 7, found
mov64 r0, -1
exit
