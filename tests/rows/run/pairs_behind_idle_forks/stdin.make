# The root forks twelve children that stay idle, so its id gets deep, and then sixteen pairs. They send to and fro, with a checkpoint behind each
# message, and end in a present state. All pairs fall at once, far, and each chain is asked for.
{
    echo 'root r'
    for i in {0..11}; do printf '%s\n' "fork r c$i" "check c$i"; done
    echo 'fork r p0'
    for i in {1..31}; do echo "fork p$(((i - 1) / 2)) p$i"; done
    echo 'check r'
    for i in {0..31}; do echo "check p$i"; done
    for turn in {0..11}; do
        for i in {0..30..2}; do
            a=p$((i + turn % 2)) b=p$((i + 1 - turn % 2))
            printf '%s\n' "send $a m$turn-$i" "receive $b m$turn-$i" "check $b"
        done
    done
    for i in {0..31}; do echo "present p$i"; done
} | "$program" drive -
printf '%s\n' GARBAGE 'LINE p0' 'LINE p1,p30'
