$records 'BEGIN a' 'CHECK a 1 1;1' >"$file"
printf 'half a record' >>"$file"
