{ $records_of_the_first_version 'BEGIN a'; printf 'rest of a write'; } >"$file"
