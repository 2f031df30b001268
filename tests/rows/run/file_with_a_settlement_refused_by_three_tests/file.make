$records_of_epochs '0 BEGIN a' '1 SETTLE 2 z' >"$file"
