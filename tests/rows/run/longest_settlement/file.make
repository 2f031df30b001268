# A settlement of 8,192 bytes is taken; one of 8,193 ends the session.
names=$(printf ',a%.0s' {1..4092})
longest="SETTLE 1 ${names:1}"
[ "${#longest}" = 8192 ]
replies=$(printf '%s\n' 'BEGIN a' "$longest" "${longest}a" 'BEGIN a' | "$program" run "$file")
[ "$replies" = $'OK 1\nSETTLED 1 2\nBAD 2' ]
