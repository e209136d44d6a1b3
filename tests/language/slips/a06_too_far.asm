ja +32768
exit
