echo BEGIN a
printf 'STATE a%.0s\n' {1..65534}
echo 'SETTLE 1 a'
echo 'SETTLE 2 a'
