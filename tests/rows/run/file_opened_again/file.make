printf 'BEGIN a\nFORK a 1 1;1 (1,0) b (0,1)\nCHECK a 2 (1,0);(1,1,0)\n' | "$program" run "$file"
printf 'CHECK a 3 (1,0);(2,2,0)\n' | "$program" run "$file"
