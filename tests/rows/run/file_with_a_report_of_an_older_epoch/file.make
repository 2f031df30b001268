$records_of_epochs '0 BEGIN a' '0 SETTLE 1 a' '0 CHECK a 1 1;1' >"$file"
