# The words of a text that a list of known words lacks. Each known word comes at least twice, so that it isn't written.
{
    cat examples/text.txt | tr -cs A-Za-z '\n' | tr A-Z a-z | sort -u
    cat examples/known-words.txt examples/known-words.txt
} | sort | uniq -u
