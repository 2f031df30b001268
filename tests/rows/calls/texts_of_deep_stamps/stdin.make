# A stamp with an id that owns a point so many levels down, and with these events.
deep() {
    printf '%s ' "$1"
    printf '(%.0s' $(seq "$2")
    printf 1
    printf ',0)%.0s' $(seq "$2")
    echo ";$3"
}
deep stamp 40 0
deep stamp 41 x
deep stamp 41 '(0,2,2)'
deep stamp 41 0
deep stamp 41 4294967296
deep fork 40 0
