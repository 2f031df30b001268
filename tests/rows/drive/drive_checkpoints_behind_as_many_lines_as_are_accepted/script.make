# 1,024 processes, of which the root knows all, each by a number of events of its own; as many lines as chains accept; and reports of the
# root behind them, which chains refuse: kept, they would take more memory than there is.
echo 'root a'
names=(a)
for turn in {1..10}; do
    for parent in "${names[@]}"; do
        echo "fork $parent p${#names[@]}"
        names+=("p${#names[@]}")
    done
done
for i in {1..1023}; do
    for ((event = i * 7 % 5; event > 0; event--)); do
        echo "work p$i"
    done
    printf '%s\n' "send p$i m$i" "receive a m$i"
done
yes 'check p1' | head -n 15360 || [ $? = 141 ]
yes 'check a' | head -n 3000 || [ $? = 141 ]
echo 'check p2'
