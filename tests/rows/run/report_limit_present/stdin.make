# BEGIN, 16,382 checkpoints, and a present state; this once more, and the next one.
echo 'BEGIN a'
for number in {1..16382}; do echo "CHECK a $number 1;$number"; done
echo 'PRESENT a 16383 1;16383'
echo 'PRESENT a 16383 1;16383'
echo 'PRESENT a 16384 1;16384'
echo 'STATE a'
echo 'LINE a'
echo 'LINE -'
