; map array 8 16
; program set update 12 v13_address_for_a_number.hex
mov64 r6, r1
mov64 r2, r6
ldmap r1, 0
call 1
jeq r0, 0, missing
add64 r6, 4
stxdw [r0+0], r6
missing:
mov64 r0, 0
exit
