; map array 8 16
; program first read 4 v05_jumped_over.hex
ldxw r0, [r1+0]
ja done
done:
exit
