$records >"$file"
