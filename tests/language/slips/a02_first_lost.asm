neg64 -1
exit
