# An input of the greatest length, 64 MiB, in one line.
head -c 67108864 /dev/zero | tr '\0' x
