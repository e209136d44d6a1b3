out: exit
