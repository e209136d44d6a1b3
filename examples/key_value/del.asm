mov64 r2, r1
ldmap r1, 0
call 3
exit
