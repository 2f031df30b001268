# p0 has its birth and 15,360 checkpoints, all others have their births. No birth has events of p0 behind its last
# checkpoint. Process i was forked by process i without the highest bit of i, and its birth has an event of that one, and
# of those that this one descends from. So p1, p2, p4, .. know nobody but p0, and each other process knows the one of them
# that is the lowest bit of i, and no process before it.
printf 'OK %d\n' {1..16384}
echo 'NO 15 - 16384'
echo 'NO 15 - 16384'
echo 'STATE p0 15370 15361 live ((((((((((1,0),0),0),0),0),0),0),0),0),0)'
line='["p0",15361]' reasons=
for process in {1..1023}; do
    lowest=$((process & -process))
    if [ "$lowest" = "$process" ]; then
        line+=",[\"p$process\",1]"
    else
        line+=",[\"p$process\",0]"
        reasons+=",[[\"p$lowest\",1],[\"p$process\",1]]"
    fi
done
printf -v names ',"p%d"' {0..1023}
echo "LINE {\"failed\":[${names:1}],\"front\":16384,\"line\":[$line],\"reasons\":[${reasons:1}]}"
