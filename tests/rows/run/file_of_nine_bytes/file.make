printf 987654321 >"$file"
