mapfile -t checkpoints < <(for number in {1..46}; do echo "CHECK a $number 1;$number"; done)
$records 'BEGIN a' "${checkpoints[@]}" >"$file"
(trap '' XFSZ && ulimit -f 1 && echo 'SETTLE 47 a' | "$program" run "$file") || true
