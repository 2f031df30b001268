(trap '' XFSZ && ulimit -f 1 && printf '%s\n' 'BEGIN a' "$(printf 'CHECK a %d 1;%d\n' $(seq 1 99 | awk '{ print $1, $1 }'))" | "$program" run "$file") || true
