printf 'BYE\n'; head -c 8193 /dev/zero | tr '\0' 'A'; printf '\nBYE\n'
