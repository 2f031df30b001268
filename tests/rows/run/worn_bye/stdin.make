echo BEGIN a
printf 'STATE a%.0s\n' {1..65535}
echo BYE
echo STATE a
