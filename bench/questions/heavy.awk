# Numbers are exact up to 2^53, so the leading digits of a time, which all rows share, are left out.
$7 != "syscall" { next }
$10 == "entry" {
    start[$3, $9] = substr($6, 7)
    bytes[$3, $5, $9] += $13
}
$10 == "return" && start[$3, $9] {
    took = substr($6, 7) - start[$3, $9]
    sum = bytes[$3, $5, $9]
    calls[$5 " " $9]++
    total[$9] += took
    if (!($5 " " $9 in most) || sum > most[$5 " " $9]) most[$5 " " $9] = sum
    spread[$5 " " (took < 1000000 ? int(took / 50000) * 50000 : ">= 1000000")]++
    start[$3, $9] = 0
    if (took > 1000000) printf "%s %s took %.0f\n", $5, $9, took
}
END {
    for (k in calls) print k, calls[k]
    for (k in total) printf "%s %.0f\n", k, total[k]
    for (k in most) printf "%s bytes %.0f\n", k, most[k]
    for (k in spread) print k, spread[k]
}
