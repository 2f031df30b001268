$records_of_epochs '0 SETTLE 1 a' >"$file"
