$records 'BEGIN a' 'CHECK a 2 1;1' >"$file"
