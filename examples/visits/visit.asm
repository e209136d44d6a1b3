ldxw r2, [r1+0]         ; the user
ldxdw r3, [r1+4]        ; the time, in seconds
div64 r3, 86400         ; the day
stxw [r10-8], r2        ; the key is built on the stack: 4 bytes of user,
stxw [r10-4], r3        ; and 4 of day
ldmap r1, 0
mov64 r2, r10
add64 r2, -8
call 1
jeq r0, 0, first
ldxdw r1, [r0+0]
add64 r1, 1
stxdw [r0+0], r1
mov64 r0, r1
exit
first:
stdw [r10-16], 1        ; the value of a first visit
ldmap r1, 0
mov64 r2, r10
add64 r2, -8
mov64 r3, r10
add64 r3, -16
mov64 r4, 1             ; the key is not there yet
call 2
jne r0, 0, full
mov64 r0, 1
full:
exit                    ; 1, or -7: there is no room for another key
