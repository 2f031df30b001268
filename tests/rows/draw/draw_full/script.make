echo 'root a'
yes 'check a' | head -n 16384 || [ $? = 141 ]
