{ printf 'RECLINE2\x02'; $records "BEGIN a" | tail -c +10; } >"$file"
