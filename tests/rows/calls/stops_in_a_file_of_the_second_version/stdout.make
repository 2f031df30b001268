# How long the file is where the run stops, and how many reports are behind open gates.
length=23
front=1
show() {
    echo '23 bytes | front 1 | OLD 1 | OK 2 | OK 3 | OK 4 | OK 5 | closed |' "$length bytes | front $front"
}
# Bytes that come behind the others.
add() {
    show
    for ((n = 1; n <= $1; n++)); do
        length=$((length + 1))
        show
    done
}
open_gate() {
    show
    front=$((front + 1))
    show
}
# A sync, the length, and two reads.
show
show
show
show
for line in 'FORK a 1 1;1 (1,0) b (0,1)' 'CHECK a 2 (1,0);(1,1,0)' 'CHECK a 3 (1,0);(2,2,0)' 'CHECK b 1 (0,1);(5,0,1)'; do
    add $((7 + ${#line}))
    show
    open_gate
    show
done
