# 1,023 processes, and checkpoints of p0 up to 16,383 reports. The last report that is accepted is the fork of the 1,024th
# process. Behind it come a fork and a checkpoint, which are refused, and the line where all processes failed.
"$traffic" forks 1022

# p0 has the left half of the left half .. of everything after its ten forks. Each of its events counts there alone.
opened= closed= before= behind=
for _ in {1..10}; do
    opened+='('
    closed+=',0)'
    before+='(1,'
    behind+=',0)'
done
for number in {11..15370}; do
    echo "CHECK p0 $number ${opened}1$closed;$before$((number - 10))$behind"
done
"$traffic" forks 1023 | tail -n 1
stamp="${opened}1$closed;${before}15361$behind"
echo "FORK p0 15371 $stamp $opened(1,0)$closed p1024 $opened(0,1)$closed"
echo "CHECK p0 15371 $stamp"
echo "STATE p0"
printf -v names ',p%d' {0..1023}
echo "LINE ${names:1}"
