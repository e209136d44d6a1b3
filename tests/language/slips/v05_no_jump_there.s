; map array 8 16
; program ratio read 8 v05_no_jump_there.hex
ldxw r0, [r1+0]
ldxw r2, [r1+4]
jeq r2, 0, done
div64 r0, r2
done:
exit
zero:
mov64 r0, -1
exit
