$records_of_the_first_version 'BEGIN a' 'PRESENT a 1 1;1' 'SETTLE 2 a' >"$file"
