# The text of 40 levels as it was, and the parts of the ids that have some.
printf '(0,%.0s' {1..40}
printf 1
printf ')%.0s' {1..40}
echo
echo TooDeep
echo TooDeep

open= close=
for _ in {0..39}; do
    echo "${open}(1,0)$close ${open}(0,1)$close"
    open+='(' close+=',0)'
done
echo TooDeep
