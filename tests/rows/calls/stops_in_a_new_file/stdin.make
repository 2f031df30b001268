# A run over a new file, stopped in each call of the device: with none, some or all of the bytes that it writes.
run='disk | open | BEGIN a | FORK a 1 1;1 (1,0) b (0,1) | CHECK a 2 (1,0);(1,1,0) | CHECK a 3 (1,0);(2,2,0) | CHECK b 1 (0,1);(5,0,1) | close'
call=0
# Stops in calls that write so many bytes.
stop_in() {
    local written
    for written in "$@"; do
        for ((n = 0; n <= written; n++)); do
            echo "$run | stop $call $n | open"
        done
        call=$((call + 1))
    done
}
# A sync, the length, the header with a closed gate, and a sync.
stop_in 0 0 9 0
for line in 'BEGIN a' 'FORK a 1 1;1 (1,0) b (0,1)' 'CHECK a 2 (1,0);(1,1,0)' 'CHECK a 3 (1,0);(2,2,0)' 'CHECK b 1 (0,1);(5,0,1)'; do
    # Length, epoch, line and a closed gate; a sync; the gate; a sync.
    stop_in $((7 + ${#line})) 0 1 0
done
