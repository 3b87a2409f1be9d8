NR > 1 { c[$5]++ }
# the two firings that a script has beside the rows
END { c["dtrace"] = 2; for (k in c) print k, c[k] }
