$records 'BEGIN a' 'CHECK a 1 1;1' >"$file"
truncate -s 24 "$file"
