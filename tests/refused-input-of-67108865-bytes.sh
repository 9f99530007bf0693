# An input that is one byte too long.
head -c 67108865 /dev/zero | tr '\0' x
