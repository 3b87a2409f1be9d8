# Numbers are exact up to 2^53, so the leading digits of a time, which all rows share, are left out.
$10 == "entry" { t[$3] = substr($6, 7) }
$10 == "return" && t[$3] {
    took = substr($6, 7) - t[$3]
    total[$9] += took
    spread[$9 " " 2 ^ int(log(took) / log(2) + 1e-12)]++
    t[$3] = 0
}
END {
    for (k in total) printf "%s %.0f\n", k, total[k]
    for (k in spread) print k, spread[k]
}
