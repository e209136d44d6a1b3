; map hash 4 8 16
; program put update 12 v15_address_of_flags.hex
stdw [r10-8], 0
mov64 r2, r1
mov64 r3, r1
add64 r3, 4
mov64 r4, r10
add64 r4, -8
ldmap r1, 0
call 2
exit
