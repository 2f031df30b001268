$records_of_epochs '0 BEGIN a' '0 SETTLED 1 2' >"$file"
