# A source line of the greatest length, 1,048,576 bytes, eight of which are not letters of its text.
printf '{"index":{"_index":"a"}}\n{"v":"'
head -c 1048568 /dev/zero | tr '\0' x
printf '"}\n'
