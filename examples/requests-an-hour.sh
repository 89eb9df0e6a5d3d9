# How many requests of a web server's log came in each hour that had any.
cut -d : -f 2 examples/access.log | sort | uniq -c
