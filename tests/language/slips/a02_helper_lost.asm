call
exit
