echo 'root a'
printf 'fork a c%d\n' {1..41}
