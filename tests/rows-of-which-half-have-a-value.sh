# 1,025 documents, of which 512 have the value 1: a query that picks it looks at these alone, and takes one turn; one of all takes two.
n=0
while [ "$n" -le 1024 ]; do
    printf '{"index":{"_index":"w","_id":"%d"}}\n{"k":%d}\n' "$n" "$((n % 2))"
    n=$((n + 1))
done
echo --
for query in '{"term":{"k":1}}' '{"match_all":{}}'; do
    printf '{"search":{"index":"w","body":{"query":%s,"size":0}}}\n{"settle":true}\n{"history":true}\n' "$query"
done
