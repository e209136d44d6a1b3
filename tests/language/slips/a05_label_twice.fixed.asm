out:
mov64 r0, 0
 end:
exit
