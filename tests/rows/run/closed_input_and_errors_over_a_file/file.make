$records 'BEGIN a' >"$file"
