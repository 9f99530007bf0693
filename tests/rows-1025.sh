# 1,025 documents: a query looks at 1,024 rows a turn.
n=1
while [ "$n" -le 1025 ]; do
    printf '{"index":{"_index":"a","_id":%d}}\n{}\n' "$n"
    n=$((n + 1))
done
printf -- '--\n{"search":{"index":"a","body":{"size":0}}}\n{"settle":true}\n{"history":true}\n'
