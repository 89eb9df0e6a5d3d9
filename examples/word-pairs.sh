# The five most frequent pairs of neighbouring words in a text.
cat examples/text.txt | tr -cs A-Za-z '\n' | tr A-Z a-z | {
    read -r last
    while read -r word; do
        echo "$last $word"
        last=$word
    done
} | sort | uniq -c | sort -rn | head -n 5
