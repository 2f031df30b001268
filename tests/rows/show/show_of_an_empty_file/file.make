: >"$file"
