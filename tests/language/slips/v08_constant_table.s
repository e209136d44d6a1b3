; map array 8 16
; program price read 4 v08_constant_table.hex
lddw r3, 4096
ldxdw r0, [r3+8]
exit
