{ $records "BEGIN a"; printf 'rest of a write'; } >"$file"
