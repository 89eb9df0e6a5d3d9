cat examples/greeting.txt examples/name.txt
