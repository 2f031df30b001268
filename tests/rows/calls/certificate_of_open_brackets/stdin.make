# As many open brackets as a mebibyte holds.
printf 'check '
head -c 1048576 /dev/zero | tr '\0' '['
echo
