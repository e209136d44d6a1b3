; map array 8 16
; program ping read 4 v06_no_reply.hex
ldxw r1, [r1+0]
mov64 r0, 0
exit
