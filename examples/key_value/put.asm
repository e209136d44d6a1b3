mov64 r2, r1            ; the key is the first 4 bytes of the argument
mov64 r3, r1
add64 r3, 4             ; the value is the next 4
ldmap r1, 0
mov64 r4, 0             ; a new key, or another value for one that is there
call 2
exit                    ; 0, or -7: there is no room for another key
