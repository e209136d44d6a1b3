mov64 r0, 0
ja 2
exit
