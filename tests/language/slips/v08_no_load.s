; map array 8 16
; program tenfold read 4 v08_no_load.hex
mul64 r1, 10
mov64 r0, r1
exit
