{ $records "BEGIN a"; printf '\xff\xff\xff\xff\xff'; } >"$file"
