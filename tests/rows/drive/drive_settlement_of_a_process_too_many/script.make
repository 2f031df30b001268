# 1,024 processes, a fork that makes one more than chains know, and a settlement for that one: the line, which knows nothing of it, keeps
# what it did.
echo 'root a'
names=(a)
for turn in {1..10}; do
    for parent in "${names[@]}"; do
        echo "fork $parent p${#names[@]}"
        names+=("p${#names[@]}")
    done
done
printf '%s\n' 'fork p1023 one_more' 'send one_more m' 'receive p1 m' 'check p1' 'settle one_more' 'check a'
