"$records" 'BEGIN a' >"$file" && truncate -s 8G "$file"
