# So many turns that a desk makes no more; the last one is a settlement.
echo OK 1
printf 'STATE a 0 1 live 1%.0s\n' {1..65534}
echo SETTLED 1 2
echo 'NO 17 - 65536'
