# A text again and again, a leaf, and another text as often.
nested() {
    printf 'events '
    [ -z "$1" ] || printf "$1%.0s" $(seq "$4")
    printf '%s' "$2"
    [ -z "$3" ] || printf "$3%.0s" $(seq "$4")
    echo
}
nested '(0,0,' 1 ')' 40
nested '(0,0,' 1 ')' 41
nested '(0,0,' 4294967296 ')' 41
nested '(0,0,' 4294967296 ')' 40
nested '(0,0,' 0 ')' 8192
nested '(0,' 0 ',1)' 8192
nested '(' '' '' 8192
nested 9 '' '' 8192
