$records 'BEGIN a' 'CHECK a 1 1;1' 'FORK a 2 1;2 (1,0) b (0,1)' 'CHECK b 1 (0,1);(2,0,1)' 'CHECK a 3 (1,0);(2,1,0)' >"$file"
