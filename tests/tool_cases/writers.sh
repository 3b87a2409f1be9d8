# What the cases of the writers of examples/writers share: dreplay's answer over a million rows that one wrote.
cat > $T/script.d << 'END'
app:orders:submit:entry / execname == "shop" / { self->t = timestamp; @rows[probename] = count(); @sizes = sum(arg0); }
app:orders:submit:return / self->t / { @rows[probename] = count(); @results[arg0] = count(); self->t = 0; }
app::: { @times[timestamp > 1700000000000000000] = count(); @pids[pid > 0] = count(); }
END

# Runs a writer, and asks its trace.
written() {
    "$@" $T/run.csv 125000 && wc -l < $T/run.csv && cut -d , -f 3 $T/run.csv | sort -u | wc -l
    dreplay-data -s $T/script.d < $T/run.csv | dreplay-show -s $T/script.d -f csv --only rows
    dreplay-data -s $T/script.d < $T/run.csv | dreplay-show -s $T/script.d | sed -n '/@sizes/,$p'
}
