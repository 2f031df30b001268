$records "BEGIN a" >"$file"
truncate -s 22 "$file"
