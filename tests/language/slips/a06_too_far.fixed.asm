ja32 +32768
exit
