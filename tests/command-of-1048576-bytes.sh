# A command of 15 bytes, and spaces up to the greatest length of a line.
printf -- '--\n{"settle":true}'
head -c 1048561 /dev/zero | tr '\0' ' '
