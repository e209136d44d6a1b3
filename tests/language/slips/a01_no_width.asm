    mov r0, 5
    exit
