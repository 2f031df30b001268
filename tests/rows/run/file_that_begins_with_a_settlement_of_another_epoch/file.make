$records_of_epochs '1 SETTLE 1 a' >"$file"
