printf 'no record file' >"$file" && truncate -s 8G "$file"
