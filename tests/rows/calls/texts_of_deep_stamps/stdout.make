# The first text as it was, the faults of the others, and that of the fork.
printf '(%.0s' {1..40}
printf 1
printf ',0)%.0s' {1..40}
echo ';0'
printf '%s\n' Syntax NotNormal TooDeep TooDeep TooDeep
