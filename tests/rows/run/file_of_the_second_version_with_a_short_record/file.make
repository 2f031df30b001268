{ printf RECLINE2; $records_of_the_first_version 'BEGIN a' | tail -c +9; } >"$file"
