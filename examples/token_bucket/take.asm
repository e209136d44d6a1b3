mov64 r6, r1            ; keep the argument: a call forgets r1 to r5
ldxdw r7, [r6+4]        ; the time
mov64 r2, r1            ; the user
ldmap r1, 0
call 1
jeq r0, 0, new
ldxdw r1, [r0+0]        ; the tokens that were left
ldxdw r2, [r0+8]        ; the time up to which they were given out
jle r7, r2, given
mov64 r3, r7
sub64 r3, r2
div64 r3, 10            ; a token comes every 10
add64 r1, r3
mul64 r3, 10
add64 r2, r3
jle r1, 5, given
mov64 r1, 5             ; a bucket holds 5
mov64 r2, r7
given:
jeq r1, 0, refused
sub64 r1, 1
stxdw [r0+0], r1
stxdw [r0+8], r2
mov64 r0, 1
exit
refused:
mov64 r0, 0
exit
new:
stdw [r10-16], 4        ; a new user's bucket is full, and one token is taken
stxdw [r10-8], r7
ldmap r1, 0
mov64 r2, r6
mov64 r3, r10
add64 r3, -16
mov64 r4, 1             ; the key is not there yet
call 2
jne r0, 0, full
mov64 r0, 1
full:
exit                    ; 1, or -7: there is no room for another user
