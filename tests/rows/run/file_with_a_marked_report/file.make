$records 'BEGIN a' 'CHECK@1 a 1 1;1' >"$file"
