# The clients of a web server's log with the most requests: how many, and how many of these found no page.
cut -d ' ' -f 1 examples/access.log | sort | uniq -c | sort -rn | head -n 3 | while read -r requests client; do
    missing=$(grep "^$client " examples/access.log | grep -c '" 404 ')
    echo "$client $requests $missing"
done
