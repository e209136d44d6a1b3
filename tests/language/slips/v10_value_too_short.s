; map hash 4 24 16
; program put update 4 v10_value_too_short.hex
mov64 r6, r1
stdw [r10-8], 5
mov64 r2, r6
mov64 r3, r10
add64 r3, -8
mov64 r4, 0
ldmap r1, 0
call 2
exit
