$records_of_epochs '0 BEGIN a' '0 FORK a 1 1;1 (1,0) b (0,1)' '0 SETTLE 2 a' '0 CHECK b 1 (0,1);(1,0,1)' >"$file"
