jeq r0, 0, out
out:
exit
