$records 'HELLO' >"$file"
