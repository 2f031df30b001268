# The reports of a family of 256 processes: so many are the fewest that are looked at by two threads.
"$traffic" forks 255
printf '\n\nLINE -\nGARBAGE\n'
