# 66 pairs, each of which sends to and fro, with a checkpoint behind each message; and then the line where all failed. So 66 processes
# fall in a round, and each chain is asked for.
{
    echo 'root p0'
    for i in {1..131}; do echo "fork p$(((i - 1) / 2)) p$i"; done
    for i in {0..131}; do echo "check p$i"; done
    for turn in {0..3}; do
        for i in {0..130..2}; do
            a=p$((i + turn % 2)) b=p$((i + 1 - turn % 2))
            printf '%s\n' "send $a m$turn-$i" "receive $b m$turn-$i" "check $b"
        done
    done
} | "$program" drive -
echo GARBAGE
