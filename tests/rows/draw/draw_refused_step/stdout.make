# The steps before the refused one are drawn.
script=$(mktemp)
printf "%s\n" "root a" "check a" >"$script"
"$program" draw "$script" --failed a
rm "$script"
