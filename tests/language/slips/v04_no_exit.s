; map array 8 16
; program clear update 4 v04_no_exit.hex
mov64 r2, r1
ldmap r1, 0
call 1
jeq r0, 0, missing
stdw [r0+0], 0
missing:
mov64 r0, 0
