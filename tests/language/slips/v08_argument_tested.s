; map array 8 16
; program first read 4 v08_argument_tested.hex
mov64 r0, 0
jeq r1, 0, none
ldxw r0, [r1+0]
none:
exit
