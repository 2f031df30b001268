$records_of_the_first_version 'BEGIN a' 'FORK a 1 1;1 (1,0) b (0,1)' >"$file"
