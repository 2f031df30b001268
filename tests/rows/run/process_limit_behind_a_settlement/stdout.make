for ((front = 1; front <= 1024; front++)); do echo "OK $front"; done
state='STATE p1023 0 1 live (0,(0,(0,(0,(0,(0,(0,(0,(0,(0,1))))))))))'
echo "$state"
echo 'SETTLED 1 1025'
echo 'STATE p0 0 1 live 1'
echo 'NO 3 p1 -'
for ((front = 1026; front <= 2048; front++)); do echo "OK $front"; done
echo "$state"
