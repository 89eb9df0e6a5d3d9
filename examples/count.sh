cat examples/greeting.txt | grep -F hello | wc -l
