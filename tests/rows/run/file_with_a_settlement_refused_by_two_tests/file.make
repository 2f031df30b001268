$records_of_epochs '0 BEGIN a' '0 SETTLE 2 z' >"$file"
