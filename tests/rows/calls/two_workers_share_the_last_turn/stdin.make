# A session makes all turns but the last one, for which two more ask at once.
echo BEGIN a
printf 'x%.0s\n' {1..65534}
printf '\nSTATE a\n\nSTATE a\n'
