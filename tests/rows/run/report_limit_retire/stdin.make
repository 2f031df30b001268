# BEGIN, 16,381 checkpoints, a fork, and the retirement of the child; this once more, and two reports of its target.
echo 'BEGIN a'
for number in {1..16381}; do echo "CHECK a $number 1;$number"; done
echo 'FORK a 16382 1;16382 (1,0) b (0,1)'
echo 'RETIRE b 1 (0,1);(16382,0,1) a'
echo 'RETIRE b 1 (0,1);(16382,0,1) a'
echo 'RETIRE a 16383 (1,0);(16382,1,0) b'
echo 'ABSORB a 16383 1;16383 b'
echo 'STATE a'
echo 'STATE b'
echo 'LINE b'
