out:
exit
