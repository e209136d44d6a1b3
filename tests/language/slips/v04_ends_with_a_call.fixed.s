; map hash 4 8 16
; program put update 12 v04_ends_with_a_call.hex
mov64 r2, r1
mov64 r3, r1
add64 r3, 4
ldmap r1, 0
mov64 r4, 0
call 2
exit
