# A command of 15 bytes, and one space more than a line may have.
printf -- '--\n{"settle":true}'
head -c 1048562 /dev/zero | tr '\0' ' '
