# A family of 1,024 processes, p0 to p1023, and its line where all of them failed, and where none did.
"$traffic" forks 1023
printf -v names ',p%d' {0..1023}
echo "LINE ${names:1}"
echo 'LINE -'
