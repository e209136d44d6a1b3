; map array 8 16
; program peek read 4 v17_pointer_as_reply.hex
mov64 r2, r1
ldmap r1, 0
call 1
jeq r0, 0, missing
exit
missing:
mov64 r0, -1
exit
