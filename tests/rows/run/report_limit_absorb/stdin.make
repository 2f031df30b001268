# BEGIN, 16,380 checkpoints, a fork, the retirement of the child, and its absorption; this once more, a second one, and a
# checkpoint.
echo 'BEGIN a'
for number in {1..16380}; do echo "CHECK a $number 1;$number"; done
echo 'FORK a 16381 1;16381 (1,0) b (0,1)'
echo 'RETIRE b 1 (0,1);(16381,0,1) a'
echo 'ABSORB a 16382 1;16382 b'
echo 'ABSORB a 16382 1;16382 b'
echo 'ABSORB a 16383 1;16383 b'
echo 'CHECK a 16383 1;16383'
echo 'STATE a'
echo 'STATE b'
echo 'LINE -'
