jeq r0, 0, out
exit
