printf 'a file of words' >"$file"
