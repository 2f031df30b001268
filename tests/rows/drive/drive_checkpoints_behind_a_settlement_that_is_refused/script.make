# 1,024 processes, of which the root knows all, each by a number of events of its own; a fork that makes one more than chains know; a
# settlement that undoes it, which chains refuse by its front; and reports of the root behind it, which are of an epoch that chains do not
# have: kept, they would take more memory than there is.
echo 'root a'
names=(a)
for turn in {1..10}; do
    for parent in "${names[@]}"; do
        echo "fork $parent p${#names[@]}"
        names+=("p${#names[@]}")
    done
done
for i in {1..1023}; do
    for ((event = i * 7 % 5; event > 0; event--)); do
        echo "work p$i"
    done
    printf '%s\n' "send p$i m$i" "check p$i" "receive a m$i"
done
printf '%s\n' 'check a' 'fork a one_more' 'settle a'
yes 'check a' | head -n 3000 || [ $? = 141 ]
echo 'check p1'
