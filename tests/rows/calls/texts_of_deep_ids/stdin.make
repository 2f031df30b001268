# Ids that own a point 40, 41 and 4,000 levels down; and ids of up to 40 levels, of which the last has no parts.
deep() {
    printf '%s ' "$1"
    printf '(0,%.0s' $(seq "$2")
    printf 1
    printf ')%.0s' $(seq "$2")
    echo
}
deep id 40
deep id 41
deep id 4000

open= close=
for _ in {0..40}; do
    echo "split ${open}1$close"
    open+='(' close+=',0)'
done
