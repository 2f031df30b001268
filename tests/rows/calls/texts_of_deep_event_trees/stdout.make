# The first text as it was, and the faults of the others.
printf '(0,0,%.0s' {1..40}
printf 1
printf ')%.0s' {1..40}
echo
printf '%s\n' TooDeep TooDeep TooLarge NotNormal TooDeep Syntax TooLarge
