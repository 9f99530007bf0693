# A source line that is one byte too long.
printf '{"index":{"_index":"a"}}\n{"v":"'
head -c 1048569 /dev/zero | tr '\0' x
printf '"}\n'
