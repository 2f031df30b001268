$records_of_the_first_version 'BEGIN a' >"$file"
