$records_of_epochs '0 BEGIN a' '1 SETTLE 1 a' >"$file"
