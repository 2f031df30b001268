# The lines that a script prints are taken as they stand, settlements among them.
printf '%s\n' 'root a' 'fork a b' 'check a' 'send b m' 'receive a m' 'check a' 'send a n' 'receive b n' 'check b' 'settle a' 'check a' \
    'check b' 'settle -' 'check b' >"$file"
"$program" drive "$file"
echo 'LINE a'
