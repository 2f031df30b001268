$records_of_epochs '0 BEGIN a' '0 SETTLE 1 a' '2 CHECK a 1 1;1' >"$file"
