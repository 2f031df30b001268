"$program" drive <(bash "$rows/drive/drive_long_domino/script.make")
echo 'LINE a'
