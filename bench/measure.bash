# What the scripts that time single calls share; they source it.
#
# Each row compares a call of pash_bench with a command on one text. Both are run five times, in turn, and the best time
# counts: of the call that of the call alone, of the command that of its process. The peak is the most memory that the
# process of the call held, with the text.
set -euo pipefail
export LC_ALL=C

pash=${PASH:-$(cd "$(dirname "${BASH_SOURCE[0]}")/.." && pwd)/pash}
crate=$(cd "$(dirname "${BASH_SOURCE[0]}")/../crates/pash_bench" && pwd)
texts=$(mktemp -d)
trap 'rm -rf "$texts"' EXIT

build() {
    (cd "$crate" && rt run -- next_line data/text) >"$texts/log" 2>&1 || {
        cat "$texts/log" >&2
        exit 1
    }
}

# A text of this many megabytes, in lines of 0 to 2 * mean bytes; the same in each run.
make_text() {
    awk -v megabytes="$1" -v mean="$2" 'BEGIN {
        srand(1)
        while (length(letters) < 2 * mean) letters = letters "the quick brown fox jumps over the lazy dog "
        for (made = 0; made < megabytes * 1000000; made += count + 1) {
            count = int(rand() * (2 * mean + 1))
            print substr(letters, 1, count)
        }
    }'
}

# This many megabytes of lines of 1 to 12 words of a vocabulary of 5,000, some capitalized; the same in each run.
make_words() {
    awk -v megabytes="$1" 'BEGIN {
        srand(1)
        for (count = 0; count < 5000; count++) {
            word = ""
            for (size = 2 + int(rand() * 9); size > 0; size--) word = word sprintf("%c", 97 + int(rand() * 26))
            words[count] = word
        }
        for (made = 0; made < megabytes * 1000000; made += length(line) + 1) {
            line = words[int(rand() * 5000)]
            if (rand() < 0.3) line = toupper(substr(line, 1, 1)) substr(line, 2)
            for (more = int(rand() * 12); more > 0; more--) line = line " " words[int(rand() * 5000)]
            print line
        }
    }'
}

# A web server's log in the combined format (host, time, request, status, size, referrer, agent), of this many megabytes; the same in each run.
make_log() {
    awk -v megabytes="$1" '
        function one_of(list, count) { return list[int(rand() * count) + 1] }

        BEGIN {
            srand(1)
            months = split("Jan Feb Mar Apr May Jun Jul Aug Sep Oct Nov Dec", month, " ")
            paths = split("/ /index.html /robots.txt /favicon.ico /assets/main.css /assets/app.js /images/logo.png " \
                "/blog/2026/11/a-short-title /search?q=pipeline&page=2 /api/v1/items/48213 /docs/manual/chapter-12.html", path, " ")
            agents = split("Mozilla/5.0 (X11; Linux x86_64; rv:128.0) Gecko/20100101 Firefox/128.0|" \
                "Mozilla/5.0 (Windows NT 10.0; Win64; x64) AppleWebKit/537.36 (KHTML, like Gecko) Chrome/129.0.0.0 Safari/537.36|" \
                "Mozilla/5.0 (compatible; Googlebot/2.1; +http://www.google.com/bot.html)|curl/8.5.0|-", agent, "|")
            for (made = 0; made < megabytes * 1000000; made += length(line) + 1) {
                line = sprintf("%d.%d.%d.%d - - [%02d/%s/2026:%02d:%02d:%02d +0000] \"GET %s HTTP/1.1\" %d %d \"%s\" \"%s\"",
                    rand() * 223 + 1, rand() * 256, rand() * 256, rand() * 256,
                    rand() * 28 + 1, one_of(month, months), rand() * 24, rand() * 60, rand() * 60,
                    one_of(path, paths), rand() < 0.9 ? 200 : 404, rand() * 50000,
                    rand() < 0.5 ? "-" : "https://www.example.org" one_of(path, paths), one_of(agent, agents))
                print line
            }
        }'
}

# Text in lines of 0 to 80 bytes, and then a log: this many megabytes, half each.
make_text_and_log() {
    make_text "$(($1 / 2))" 40
    make_log "$(($1 / 2))"
}

# The nanoseconds that a call takes on a text.
time_call() {
    "$crate/out/pash_bench" "$1" "$2" 2>&1 >"$texts/found"
}

# The nanoseconds that a command takes.
time_command() {
    local start=${EPOCHREALTIME/./} end
    "$@" >"$texts/wanted"
    end=${EPOCHREALTIME/./}
    echo $(((end - start) * 1000))
}

print_head() {
    echo "$(nproc) cores, $(wc --version | head -1)"
    printf '%-26s %10s %10s %8s %10s\n' call call-ms other-ms ratio peak-MB
}

# A row: compare LABEL CALL TEXT COMMAND WORD..
compare() {
    local label=$1 call=$2 text=$3 best=0 other=0 time round peak
    shift 3
    for ((round = 0; round < 5; round++)); do
        time=$(time_call "$call" "$text")
        ((best == 0 || time < best)) && best=$time
        time=$(time_command "$@")
        ((other == 0 || time < other)) && other=$time
        cmp -s "$texts/found" "$texts/wanted" || {
            echo "$label: $call finds $(cat "$texts/found"), $1 finds $(cat "$texts/wanted")" >&2
            exit 1
        }
    done
    peak=$(/usr/bin/time -f %M "$crate/out/pash_bench" "$call" "$text" 2>&1 >"$texts/found" | tail -1)
    awk -v label="$label" -v best="$best" -v other="$other" -v peak="$peak" 'BEGIN {
        printf "%-26s %10.1f %10.1f %8.2f %10d\n", label, best / 1e6, other / 1e6, best / other, peak / 1024
    }'
}

# Has the program built, which the first run does.
build_pash() {
    : >"$texts/nothing"
    "$pash" run 1 "$texts/nothing" >"$texts/log" 2>&1 || {
        cat "$texts/log" >&2
        exit 1
    }
}

# timed LABEL COMMAND..: of five runs the best milliseconds of the processor, in all processes, and of the clock, and the peak memory of the
# last. Each run has to print what is wanted, but for blanks that lines begin with, as those of GNU's `uniq -c` do.
timed() {
    local label=$1 round spent clock best_spent= best_clock=
    shift
    for round in 1 2 3 4 5; do
        /usr/bin/time -o "$texts/spent" -f '%U %S %e %M' "$@" >"$texts/found"
        [ "$(sed 's/^ *//' "$texts/found")" = "$want" ] || {
            echo "$label: $(head -c 200 "$texts/found") in place of $(head -c 200 <<<"$want")" >&2
            exit 1
        }
        spent=$(awk '{ printf "%d", ($1 + $2) * 1000 }' "$texts/spent")
        clock=$(awk '{ printf "%d", $3 * 1000 }' "$texts/spent")
        [ -n "$best_spent" ] && [ "$best_spent" -le "$spent" ] || best_spent=$spent
        [ -n "$best_clock" ] && [ "$best_clock" -le "$clock" ] || best_clock=$clock
    done
    printf '%-36s %8d %8d %8d\n' "$label" "$best_spent" "$best_clock" "$(awk '{ print $4 }' "$texts/spent")"
}

# The milliseconds of the processor that a command takes on the text, with its output in a file: spent_on_text OUTPUT COMMAND..
spent_on_text() {
    local output=$1
    shift
    /usr/bin/time -o "$texts/spent" -f '%U %S' "$@" <"$text" >"$output" 2>"$texts/log" || true
    tail -1 "$texts/spent" | awk '{ printf "%d", ($1 + $2) * 1000 }'
}

# What a tool pads its output with is dropped where bytes are counted.
without_padding() {
    cat
}

print_stream_head() {
    echo "$(nproc) cores, $(wc --version | head -1)"
    printf '%-26s %10s %10s %8s %8s\n' call call-ms GNU-ms ratio peak-MB
}

# A row: a utility as a stream over the pieces of the text, beside GNU's that reads it from its standard input and writes to /dev/null:
# compare_stream UTILITY WORD.. The outputs have to have as many bytes.
compare_stream() {
    local best=0 other=0 time round bytes peak
    bytes=$("$@" <"$text" | without_padding | wc -c)
    for ((round = 0; round < 5; round++)); do
        time=$(spent_on_text "$texts/found" "$crate/out/pash_bench" stream "$text" "$@")
        ((best == 0 || time < best)) && best=$time
        [ "$(cat "$texts/found")" = "$bytes" ] || {
            echo "$*: $(cat "$texts/found") bytes in place of $bytes" >&2
            exit 1
        }
        time=$(spent_on_text /dev/null "$@")
        ((other == 0 || time < other)) && other=$time
    done
    peak=$(/usr/bin/time -f %M "$crate/out/pash_bench" stream "$text" "$@" 2>&1 >"$texts/found" | tail -1)
    awk -v label="${*//$'\n'/newline}" -v best="$best" -v other="$other" -v peak="$peak" 'BEGIN {
        printf "%-26s %10d %10d %8.2f %8d\n", label, best, other, other ? best / other : 0, peak / 1024
    }'
}
