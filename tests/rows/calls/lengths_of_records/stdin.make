# Files with one length, in which more bytes stand behind the four zeros of an epoch than any length here takes.
rest=00000000$(printf 78%.0s {1..41000})
put() {
    local length version=$1
    shift
    for length in "$@"; do
        printf 'disk 5245434c494e45%s01%04x%s | open\n' "$version" "$length" "$rest"
    done
}
put 31 0 1 8192 8193 32768 32769 40960
put 32 0 1 8192 8193 32767 32768 32769 40960 40961 65535
