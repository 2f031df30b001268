# A run over a file of the first version, in which each call of the device fails, having done nothing or all; behind that it is opened twice.
# Last comes the run in which none fails, with its number of calls.
disk='disk 5245434c494e4531010007424547494e206100'
run='open | BEGIN a | FORK a 1 1;1 (1,0) b (0,1) | CHECK a 2 (1,0);(1,1,0) | CHECK a 3 (1,0);(2,2,0) | CHECK b 1 (0,1);(5,0,1) | open'
for k in {1..26}; do
    for effect in none all; do
        echo "$disk | fail $k $effect | $run | open"
    done
done
echo "$disk | $run | close | calls"
