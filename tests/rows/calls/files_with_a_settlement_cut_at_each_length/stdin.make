# A file whose last record is a settlement, cut at each length; and the same where the gate in front of that record is closed yet.
put() {
    for ((n = 0; n <= ${#1}; n += 2)); do
        echo "disk ${1:0:n} | open"
    done
}
put 5245434c494e453201800700000000424547494e206101800a00000000534554544c452031206100
put 5245434c494e453201800700000000424547494e206100800a00000000534554544c452031206100
