mov64 r0 5
exit
