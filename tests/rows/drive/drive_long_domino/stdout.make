# Behind the first exchange each receive fills the half of its process up to the other half, and the checkpoint behind it is
# one above: the values rise by four with each pair of messages.
printf '%s\n' 'BEGIN a' 'FORK a 1 1;1 (1,0) b (0,1)' 'CHECK a 2 (1,0);(1,1,0)' 'CHECK a 3 (1,0);(2,2,0)' 'CHECK b 1 (0,1);(5,0,1)'
for i in {2..100}; do
    echo "CHECK a $((i + 2)) (1,0);($((4 * i - 1)),1,0)"
    echo "CHECK b $i (0,1);($((4 * i + 1)),0,1)"
done
