ldxw r0, [r1] ; the argument
exit
