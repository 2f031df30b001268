{ printf 'RECLINE2\x01\x80\x07\x00\x00\x00\x01'; $records 'BEGIN a' | tail -c +16; } >"$file"
