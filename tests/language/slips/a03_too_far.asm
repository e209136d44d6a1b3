ldxw r0, [r1+40000]
exit
