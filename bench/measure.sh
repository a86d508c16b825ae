# What bench/run is made of: the programs, the texts, the time and the memory of a run, and the tables that are printed.

# build NAME WORD..: proves and builds the program, and runs it once with these arguments
build() {
    local name=$1
    shift
    (cd "crates/$name" && rt run -- "$@" < /dev/null > /dev/null 2>&1)
}

program() { echo "crates/$1/out/$1"; }

# compile NAME: the plain Rust program NAME.rs of this folder
compile() { rustc -O --edition 2021 -o "$work/$1" "bench/$1.rs"; }

# text COLUMNS ROWS: a grid as a mesh text, in a file of its own; answers the file
text() {
    local file=$work/$1x$2.txt
    [ -e "$file" ] || "$(program grid_text)" "$1" "$2" 1 > "$file"
    echo "$file"
}

# took FILE COMMAND..: how long one run over a file as standard input takes, in microseconds
took() {
    local file=$1 start
    shift
    start=$(date +%s%N)
    "$@" < "$file" > /dev/null
    echo $((($(date +%s%N) - start) / 1000))
}

# the least of some numbers
least() { printf '%s\n' "$@" | sort -n | head -n 1; }

# best FILE COMMAND..: the shortest of five runs
best() { least $(for _ in 1 2 3 4 5; do took "$@"; done); }

# peak FILE COMMAND..: the largest resident set, in KiB
peak() {
    local file=$1
    shift
    /usr/bin/time -f %M "$@" < "$file" 2>&1 > /dev/null
}

# one number over another, with two digits behind the point
ratio() { printf '%d.%02d' $(($1 / $2)) $((100 * $1 / $2 % 100)); }

# microseconds as milliseconds
milliseconds() { for time in "$@"; do printf ' %d' $((time / 1000)); done; }

# beside FILE ONE TWO: breaks off unless both programs print the same on the file; then seven runs of both in turn, the best of each,
# their ratio, and the peak memory of each
beside() {
    local file=$1 one=$2 two=$3 ones=() twos=()
    if ! cmp -s <("$one" < "$file") <("$two" < "$file"); then
        echo "$one and $two differ on $file" >&2
        exit 1
    fi
    for _ in 1 2 3 4 5 6 7; do
        ones+=("$(took "$file" "$one")")
        twos+=("$(took "$file" "$two")")
    done
    echo "$(basename "$one"): best$(milliseconds "$(least "${ones[@]}")") ms of$(milliseconds "${ones[@]}"); peak memory $(peak "$file" "$one") KiB"
    echo "$(basename "$two"): best$(milliseconds "$(least "${twos[@]}")") ms of$(milliseconds "${twos[@]}"); peak memory $(peak "$file" "$two") KiB"
    echo "ratio of the best: $(ratio "$(least "${ones[@]}")" "$(least "${twos[@]}")")"
}

# row NAME COLUMNS ROWS: a line of the table of sizes
row() {
    local file lines time
    file=$(text "$2" "$3")
    lines=$(wc -l < "$file")
    time=$(best "$file" "$(program "$1")")
    printf '%-8s %10d %12d %10d %12d %12d\n' \
        "$1" "$lines" "$(stat -c %s "$file")" $((time / 1000)) $((time * 1000 / lines)) "$(peak "$file" "$(program "$1")")"
}

# sizes NAME: the program on texts of about 10^4, 10^5, 10^6 and 10^7 lines
sizes() {
    row "$1" 50 50
    row "$1" 250 100
    row "$1" 500 500
    row "$1" 1000 2500
}
