# A job in the background makes a list; the shell looks for it until it is there, then packs it and
# searches in it.
(
    sleep 0.05
    ls -R /usr/share/doc/[p-s]* | head -n 3000 > list
    mv list ready
) &
until cat ready > copy; do
    sleep 0.02
done 2> /dev/null
wait
sort copy | uniq -c | sort -n | tail -n 3 > frequent
xz -T2 --block-size=2KiB -c copy > copy.xz
gzip -c copy > copy.gz
grep -c copyright copy
rm ready copy copy.xz copy.gz frequent
