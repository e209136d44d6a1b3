; map hash 4 8 16
; program take read 4 v18_call_in_a_read.hex
mov64 r2, r1
ldmap r1, 0
call 3
exit
