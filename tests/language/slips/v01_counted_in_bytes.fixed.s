; map array 8 16
; program clamp read 4 v01_counted_in_bytes.hex
ldxw r0, [r1+0]
jle r0, 100, +1
mov64 r0, 100
exit
