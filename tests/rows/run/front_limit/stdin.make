# A checkpoint a line, but that of each 2,000 lines one is a present state and the next a settlement, which undoes it; the last line is a
# settlement. Behind it come reports and settlements of each kind.
echo 'BEGIN a'
epoch=
number=1
for ((front = 1; front < 16384; front++)); do
    if [ $((front % 2000)) = 1998 ]; then
        echo "PRESENT$epoch a $number 1;$number"
    elif [ $((front % 2000)) = 1999 ] || [ "$front" = 16383 ]; then
        echo "SETTLE $front a"
        epoch=@$((${epoch#@} + 1))
    else
        echo "CHECK$epoch a $number 1;$number"
        number=$((number + 1))
    fi
done
echo 'SETTLE 16384 a'
echo 'SETTLE 16384 -'
echo 'SETTLE 16383 a'
echo 'SETTLE 16384 z'
echo "CHECK@8 a $((number - 1)) 1;$((number - 1))"
echo "CHECK@9 a $number 1;$number"
echo "PRESENT@9 a $number 1;$number"
echo "RETIRE@9 a $number 1;$number a"
echo "FORK@9 a $number 1;$number (1,0) b (0,1)"
echo "CHECK@8 a $number 1;$number"
echo 'BEGIN a'
echo 'STATE a'
echo 'LINE a'
