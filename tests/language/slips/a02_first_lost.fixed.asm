neg64 r1
exit
