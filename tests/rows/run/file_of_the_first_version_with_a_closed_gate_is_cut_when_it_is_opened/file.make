{ printf 'RECLINE1\x00'; $records_of_the_first_version "BEGIN a" | tail -c +10; } >"$file"
