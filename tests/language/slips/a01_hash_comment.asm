mov64 r0, 5 ; five
# the reply
exit
