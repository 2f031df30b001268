# Of three processes that send round and round one forks at the end, and takes a checkpoint more, so its last ids differ. All fall far.
{
    printf '%s\n' 'root a' 'fork a b' 'fork b c' 'check a' 'check b' 'check c'
    for i in {1..6}; do
        printf '%s\n' "send b m$i" "receive c m$i" 'check c' "send c n$i" "receive b n$i" 'check b' "send a l$i" "receive b l$i" 'check b' "send b k$i" "receive a k$i" 'check a'
    done
    printf '%s\n' 'fork a d' 'check a' 'send a x' 'receive c x' 'check c' 'send c y' 'receive a y' 'check a'
} | "$program" drive -
printf '%s\n' 'LINE b' 'LINE a' 'LINE d' 'LINE a,c' GARBAGE
