movsx64 r0, r1, 8
exit
