# So many turns that a desk makes no more.
echo OK 1
printf 'STATE a 0 1 live 1%.0s\n' {1..65535}
echo 'NO 17 - 65536'
