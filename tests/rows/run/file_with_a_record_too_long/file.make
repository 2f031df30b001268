{ printf 'RECLINE2\x01\xa0\x01\x00\x00\x00\x00'; head -c 8193 /dev/zero; printf '\x00'; } >"$file"
