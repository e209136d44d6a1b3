mov64 r0, 1
add64 r0, r11
exit
