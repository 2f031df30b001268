# 1,024 processes, each made by one of half its number. All return to the birth of the first one, and then the forks come again.
mapfile -t forks < <(for ((k = 1; k < 1024; k++)); do echo "fork p$(((k - 1) / 2)) p$k"; done)
printf '%s\n' 'root p0' "${forks[@]}" >"$file"
reports=$("$program" drive "$file")
echo "$reports"
echo 'STATE p1023'
echo 'SETTLE 1024 p0'
echo 'STATE p0'
echo 'STATE p1'
tail -n +2 <<<"$reports" | sed s/FORK/FORK@1/
echo 'STATE p1023'
