# Each fork opens one more level of the left edge: before fork k, the id of a is 1 behind k - 1 levels, and its event opens
# the level that the last fork made.
echo 'BEGIN a'
before= behind= opened= closed=
for k in {1..40}; do
    echo "FORK a $k ${before}1$behind;${opened}1$closed $before(1,0)$behind c$k $before(0,1)$behind"
    before+='(' behind=",0)$behind" opened+='(1,' closed=",0)$closed"
done
