{ $records_of_the_first_version "BEGIN a"; printf '\xff\xff\xff\xff\xff'; } >"$file"
