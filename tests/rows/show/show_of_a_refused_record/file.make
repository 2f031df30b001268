$records 'BEGIN a' 'CHECK a 1 1;1' 'FORK a 2 1;2 (1,0) b (0,1)' 'CHECK b 2 (0,1);(2,0,1)' >"$file"
