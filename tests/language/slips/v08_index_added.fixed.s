; map array 8 16
; program digit read 3 v08_index_added.hex
ldxb r2, [r1+0]
ldxb r0, [r1+1]
jeq r2, 0, done
ldxb r0, [r1+2]
done:
exit
