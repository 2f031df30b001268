$records "BEGIN a" | sed s/RECLINE/RECLIME/ >"$file"
