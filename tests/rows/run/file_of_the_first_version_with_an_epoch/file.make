$records 'BEGIN a' | sed s/RECLINE2/RECLINE1/ >"$file"
