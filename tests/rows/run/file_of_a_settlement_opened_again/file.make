printf 'BEGIN a\nSETTLE 1 a,a\n' | "$program" run "$file"
printf 'SETTLE 2 -\nCHECK@2 a 1 1;1\n' | "$program" run "$file"
