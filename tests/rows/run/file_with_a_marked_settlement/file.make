$records_of_epochs '0 BEGIN a' '0 SETTLE@1 1 a' >"$file"
