$records 'BEGIN a' hello 'CHECK a 1 1;1' >"$file"
truncate -s 50 "$file"
