END { print "end", 1 }
