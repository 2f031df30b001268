{ printf 'RECLINE2\x00'; $records "BEGIN a" | tail -c +10; } >"$file"
