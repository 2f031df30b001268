# A marked report of 8,192 bytes, and one of 8,193.
full='(0,0,1)'
trees=("" "$full")
for ((depth = 2; depth <= 10; depth++)); do
    full="(0,$full,$full)"
    trees+=("$full")
done
tree() {
    printf '%s' "(0,${trees[10]},(0,${trees[8]},(0,${trees[6]},(0,${trees[4]},(0,0,(0,0,$1))))))"
}
longest="CHECK@1 a 1 1;$(tree 100000)"
[ "${#longest}" = 8192 ]
echo 'BEGIN a'
echo "$longest"
echo "CHECK@1 a 1 1;$(tree 1000000)"
