mov64 r0, 1
add64 r0, r10
exit
