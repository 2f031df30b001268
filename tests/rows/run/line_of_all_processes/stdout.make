# Each process has its birth alone. That of each but p0 has events of p0 behind p0's birth, so it knows p0 after that, and
# it goes down in the first round. That no other process comes before p0 makes each chain one of p0's birth and its own.
printf 'OK %d\n' {1..1024}
printf -v names ',"p%d"' {0..1023}
printf -v line ',["p%d",0]' {1..1023}
printf -v reasons ',[["p0",1],["p%d",1]]' {1..1023}
for failed in "${names:1}" ""; do
    echo "LINE {\"failed\":[$failed],\"front\":1024,\"line\":[[\"p0\",1]$line],\"reasons\":[${reasons:1}]}"
done
