# a's last checkpoint goes, since b's last one stands on a message behind it; so each takes the other one step back.
printf 'OK %d\n' {1..203}
chain='["a",102]'
for i in {101..2}; do
    of_b=$chain,[\"b\",$i]
    chain=$of_b,[\"a\",$((i + 1))]
done
echo "LINE {\"failed\":[\"a\"],\"front\":203,\"line\":[[\"a\",2],[\"b\",1]],\"reasons\":[[$chain],[$of_b]]}"
