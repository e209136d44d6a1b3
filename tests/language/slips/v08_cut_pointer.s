; map array 8 16
; program first read 4 v08_cut_pointer.hex
mov32 r6, r1
ldxw r0, [r6+0]
exit
