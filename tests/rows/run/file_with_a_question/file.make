$records 'BEGIN a' 'LINE a' >"$file"
