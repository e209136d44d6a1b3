; map array 8 16
; program grade read 4 v06_reply_on_one_way.hex
ldxw r1, [r1+0]
mov64 r0, 0
jlt r1, 50, done
mov64 r0, 1
done:
exit
