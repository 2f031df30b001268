{ printf 'RECLINE2\x01\x80\x00'; $records "BEGIN a" | tail -c +12; } >"$file"
