# A family of four processes and six messages, and then a checkpoint of each.
"$traffic" script 4 6
printf 'check p%d\n' {0..3}
