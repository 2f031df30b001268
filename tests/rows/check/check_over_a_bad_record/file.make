$records 'BEGIN a' 'BEGIN a' >"$file"
