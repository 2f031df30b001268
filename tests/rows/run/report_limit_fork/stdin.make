# BEGIN, 16,382 checkpoints, and a fork; this once more, the next one, and a checkpoint of the child.
echo 'BEGIN a'
for number in {1..16382}; do echo "CHECK a $number 1;$number"; done
echo 'FORK a 16383 1;16383 (1,0) b (0,1)'
echo 'FORK a 16383 1;16383 (1,0) b (0,1)'
echo 'FORK a 16384 (1,0);(16383,1,0) ((1,0),0) c ((0,1),0)'
echo 'CHECK b 1 (0,1);(16383,0,1)'
echo 'STATE a'
echo 'STATE b'
echo 'LINE b'
