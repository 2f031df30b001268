head -c 10 /dev/zero >"$file"
