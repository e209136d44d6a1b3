; map array 8 16
; program mixed read 4 v16_open_call.hex
ldxw r1, [r1+0]
call -1
exit
