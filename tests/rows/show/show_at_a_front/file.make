$records_of_epochs \
    '0 BEGIN a' \
    '0 FORK a 1 1;1 (1,0) b (0,1)' \
    '0 CHECK a 2 (1,0);(1,1,0)' \
    '0 CHECK a 3 (1,0);(2,2,0)' \
    '0 CHECK b 1 (0,1);(5,0,1)' \
    '0 SETTLE 5 a' \
    '1 CHECK a 3 (1,0);(1,2,0)' \
    '1 CHECK b 1 (0,1);(1,0,1)' >"$file"
