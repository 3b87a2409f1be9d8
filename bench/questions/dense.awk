# Numbers are exact up to 2^53, so the leading digits of a time, which all rows share, are left out.
$7 != "syscall" { next }
$10 == "entry" {
    start[$3, $9] = substr($6, 7)
    calls[$5 " " $9]++
    n = ++uses[$3, $11]
    if (n > most[$11]) most[$11] = n
    if ($13 > 4096) {
        sum = bytes[$3, $9] += $13
        total[$5] += $13
        if (sum > largest[$5 " " $11]) largest[$5 " " $11] = sum
    }
}
$10 == "return" && start[$3, $9] {
    took = substr($6, 7) - start[$3, $9]
    all[$9] += took
    times[$9]++
    for (low = 1; low * 2 <= took; low *= 2) {}
    spread[$5 " " low]++
    steps[$9 " " (took < 1000000 ? int(took / 50000) * 50000 : ">= 1000000")]++
    start[$3, $9] = 0
}
END {
    for (k in calls) print k, calls[k]
    for (k in most) print k, most[k]
    for (k in total) printf "%s %.0f\n", k, total[k]
    for (k in largest) printf "%s %.0f\n", k, largest[k]
    for (k in all) printf "%s %.0f\n", k, int(all[k] / times[k])
    for (k in spread) print k, spread[k]
    for (k in steps) print k, steps[k]
}
