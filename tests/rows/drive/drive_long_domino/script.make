echo 'root a'
echo 'fork a b'
echo 'check a'
for i in {1..100}; do
    printf '%s\n' "send b m$i" "receive a m$i" 'check a' "send a n$i" "receive b n$i" 'check b'
done
