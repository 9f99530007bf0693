# 1,025 documents, of which three have a value: a query that picks it looks at no other, and takes one turn; one that picks nothing takes two.
n=1
while [ "$n" -le 1025 ]; do
    value=b
    [ "$n" -gt 3 ] || value=a
    printf '{"index":{"_index":"a","_id":%d}}\n{"k":"%s","o":{"p":"%s"}}\n' "$n" "$value" "$value"
    n=$((n + 1))
done
echo --
for query in '{"term":{"k":"a"}}' '{"bool":{"must":[{"match_all":{}}],"filter":{"term":{"k":"a"}}}}' '{"bool":{"should":{"term":{"k":"a"}}}}' \
    '{"bool":{"must":{"bool":{"must":{"term":{"k":"a"}}}}}}' '{"terms":{"k":["a"]}}' '{"term":{"o.p":"a"}}' '{"term":{"z":"a"}}' '{"match_none":{}}'; do
    printf '{"search":{"index":"a","body":{"query":%s,"size":0}}}\n{"settle":true}\n' "$query"
done
