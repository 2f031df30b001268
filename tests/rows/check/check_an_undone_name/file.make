printf 'BEGIN a\nFORK a 1 1;1 (1,0) b (0,1)\nCHECK b 1 (0,1);(2,0,1)\nSETTLE 3 a\n' | "$program" run "$file"
