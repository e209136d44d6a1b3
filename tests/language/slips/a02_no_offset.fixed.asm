ldxw r0, [r1+0] ; the argument
exit
