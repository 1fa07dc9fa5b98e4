# What the tests of the commands share. A test sets these and reads this file, then defines groups of cases and ends by
# try_all GROUP..
#   name     the command's
#   between  the words that stand between its two files, for the base and the reset of case 1
#   list     the second file of case 1
# One that tries two_files sets usage, what is said of the arguments.
here=$(cd "$(dirname "${BASH_SOURCE[0]}")" && pwd)
examples=$here/../examples
case1=("$examples/case1.image" "${between[@]}" "$examples/$list")
command=$here/../$name
work=$(mktemp -d)
path=$PATH
trap 'rm -rf "$work"' EXIT
cases=0
differing=0

differs() {
    differing=$((differing + 1))
    echo "differs: $1"
}

# judged STATUS LINE WORDS GOT CASE: the line (as printf writes it) and the words on standard error are those expected;
# where no words are, standard error is empty. Only where a build fails (3) others than the command speak there.
judged() {
    local said
    said=$(cat "$work/stderr")
    cases=$((cases + 1))
    if [ "$4" != "$1" ] || ! printf "$2" | cmp -s - "$work/said"; then
        differs "$5: '$(cat "$work/said")', status $4; expected '$2', status $1"
    fi
    if [[ $said != *"$3"* ]] || { [ -z "$3" ] && [ -n "$said" ]; }; then
        differs "$5: '$said' on standard error; expected '$3'"
    fi
    if [ "$1" != 3 ] && grep -qv "^$name: " "$work/stderr"; then
        differs "$5: '$said' on standard error, not all of it the command's"
    fi
}

# says STATUS LINE WORDS ARGUMENT..: with the commands in path.
says() {
    local got=0
    PATH=$path "$command" "${@:4}" > "$work/said" 2> "$work/stderr" || got=$?
    judged "$1" "$2\\n" "$3" "$got" "$name ${*@Q}"
}

# says_of STATUS LINE WORDS IMAGE LIST: with two files.
says_of() {
    says "$1" "$2" "$3" "$4" "${between[@]}" "$5"
}

# bytes FILE HEX: writes a file of these bytes.
bytes() {
    : > "$work/$1"
    [ -z "$2" ] || printf "$(printf '\\x%s' $2)" > "$work/$1"
}

# files IMAGE FIRST [START..]: writes an image's bytes, the first line of its list, and its starts.
files() {
    local start
    bytes image "$1"
    printf "I\\t$2\\n" > "$work/list"
    for start in "${@:3}"; do
        printf "$start\\n" | tr ' ' '\t' >> "$work/list"
    done
}

# checked STATUS LINE WORDS IMAGE FIRST [START..]
checked() {
    files "${@:4}"
    says "$1" "$2" "$3" "$work/image" "$work/list"
}

# 4 is not among them: a list shows only marks in form.
refused_ones() {
    local nop='C000 0 0 N 0 0' at_1="$work/image: at offset 1 (address 00C001): "
    checked 1 'R\t1\t0' 'refused, 1 length:' 'EA DB' '00C000\t1\tC000' "$nop"
    checked 1 'R\t1\t0' '(list: 0, image: 0)' '' '00C000\t0\tC000'
    checked 1 'R\t2\t0' 'refused, 2 base:' '80 FE' '00FFFF\t2\tFFFF' 'FFFF 0 0 N 0 0'
    checked 1 'R\t2\t0' '(base 00FFFF, length 2)' '80 FE' '00FFFF\t2\tFFFF' 'FFFF 0 0 N 0 0'
    checked 1 'R\t2\t0' '(base FFFFFF, length 2)' '80 FE' 'FFFFFF\t2\tFFFFFF' 'FFFFFF 0 0 N 0 0'
    checked 1 'R\t3\t0' 'refused, 3 reset:' 'EA DB' '00C000\t2\tC001' "$nop"
    checked 1 'R\t3\t0' '(m=0, x=0, kind N) at 01C000' 'EA DB' '00C000\t2\t01C000' "00$nop"
    checked 1 'R\t5\t1' "refused, 5 code: $at_1" 'EA 00' '00C000\t2\tC000' "$nop" 'C001 0 0 N 0 0'
    checked 1 'R\t6\t1' "refused, 6 cut off: $at_1" 'EA A9' '00C000\t2\tC000' "$nop" 'C001 0 0 N 0 0'
    checked 1 'R\t7\t0' 'refused, 7 overlap:' '80 7F DB' '00C000\t3\tC000' "$nop" 'C001 0 0 N 0 0'
    checked 1 'R\t8\t1' "refused, 8 flow: $at_1" 'EA EA' '00C000\t2\tC000' "$nop" 'C001 0 0 N 0 0'
    checked 1 'R\t8\t1' 'address after a call is no marked start (check --explain tells which)' \
        'EA EA' '00C000\t2\tC000' "$nop" 'C001 0 0 N 0 0'
    checked 1 'R\t9\t0' 'refused, 9 widths:' 'EA DB' '00C000\t2\tC000' "$nop" 'C001 1 0 N 0 0'
    checked 1 'R\t9\t0' 'or address after a call has other marks than it must have (check --explain tells which)' \
        'EA DB' '00C000\t2\tC000' "$nop" 'C001 1 0 N 0 0'
    checked 1 'R\t10\t1' "refused, 10 return: $at_1" 'DB 60' '00C000\t2\tC000' "$nop" 'C001 0 0 L 0 0'
}

# L for more or fewer words than two files.
two_files() {
    local usage="usage: $usage"
    says 2 L "$usage"
    says 2 L "$name: two files are needed, not 0"
    says 2 L "$usage" "$examples/case1.image"
    says 2 L "$name: two files are needed, not 3" "${case1[@]}" more
}

# L, whatever the other file is.
unread_ones() {
    local none='No such file or directory' image=${case1[0]} list=$examples/$list
    : > "$work/empty"
    ln -s loop "$work/loop"
    says_of 2 L "$name: $work/none: $none" "$work/none" "$list"
    says_of 2 L "$name: $work/none: $none" "$image" "$work/none"
    says_of 2 L "$name: $work/none: $none" "$work/none" "$work/empty"
    says_of 2 L "$name: '': $none" '' "$list"
    says_of 2 L "$name: $work: Is a directory" "$work" "$list"
    says_of 2 L "$name: $work: Is a directory" "$image" "$work"
    says_of 2 L "$name: /proc/self/mem: Input/output error" "$image" /proc/self/mem
    says_of 2 L "$name: $work/empty/none: Not a directory" "$image" "$work/empty/none"
    says_of 2 L "$name: $work/loop: Too many levels of symbolic links" "$work/loop" "$list"
    says_of 2 L "$name: /dev/zero: over 65,536 bytes, or can't be read to its end" /dev/zero "$list"
    says_of 2 L "$name: /dev/stdin: Is a directory" /dev/stdin "$list" <&-
}

# unprinted WORDS STATUS: no line, status 2, and why.
unprinted() {
    : > "$work/said"
    judged 2 '' "$name: standard output: $1" "$2" "$name on an output that says '$1'"
}

# On outputs that take no line.
outputs() {
    local got=0
    "$command" "${case1[@]}" > /dev/full 2> "$work/stderr" || got=$?
    unprinted 'No space left on device' "$got"
    got=0
    "$command" "${case1[@]}" >&- 2> "$work/stderr" || got=$?
    unprinted 'Bad file descriptor' "$got"
    {
        until [ -e "$work/closed" ]; do
            sleep 0.1
        done
        got=0
        "$command" "${case1[@]}" 2> "$work/stderr" || got=$?
        echo "$got" > "$work/got"
    } | { exec <&-; : > "$work/closed"; }
    unprinted 'Broken pipe' "$(cat "$work/got")"
    got=0
    "$command" --help > /dev/full 2> "$work/stderr" || got=$?
    unprinted 'No space left on device' "$got"
    got=0
    : > "$work/stderr"
    "$command" "$examples/case1.image" "${between[@]}" "$work/none" > "$work/said" 2>&- || got=$?
    judged 2 'L\n' '' "$got" "$name without standard error"
}

# printed WORDS ARGUMENT..: a text that has the words, status 0.
printed() {
    local got=0
    "$command" "${@:2}" > "$work/said" 2> "$work/stderr" || got=$?
    cases=$((cases + 1))
    [[ $got = 0 && $(cat "$work/said") =~ $1 && ! -s $work/stderr ]] \
        || differs "$name ${*:2}: $(cat "$work/said" "$work/stderr"), status $got"
}

# The command's man page is in order.
man_page_in_order() {
    local page=$here/../docs/$name.1
    cases=$((cases + 1))
    ! command -v groff > /dev/null || [ -z "$(groff -man -t -ww -z "$page" 2>&1)" ] || differs "groff warns of $name.1"
}

# builds_in_copy TEXT: in a copy, where a script stands in for rt, and links the program where LINKED is set. Case 1 is
# answered by the text; a build that another command has begun is waited for.
builds_in_copy() {
    local copy=$work/copy command=$work/copy/$name path=$work/rt:$PATH got=0 words="$name: proving and building" crate
    crate=$(sed -n 's/^crate=//p' "$here/../$name")
    export PROGRAM=$here/../crates/$crate/out/$crate
    mkdir -p "$copy/crates/$crate/src" "$copy/target" "$work/rt"
    cp "$here/../$name" "$here/../commands.bash" "$here/../words.bash" "$copy"
    echo "$crate:" > "$copy/crates.txt"
    printf '#!/bin/sh\nmkdir -p out\n[ -z "${LINKED:-}" ] || cp "$PROGRAM" out\n' > "$work/rt/rt"
    chmod +x "$work/rt/rt"
    PATH=$path "$command" "${case1[@]}" > "$work/said" 2> "$work/stderr" || got=$?
    judged 3 '' "$name: rt run in crates/$crate failed; all that it said: " "$got" "$name that is not built"
    export LINKED=yes
    if command -v flock > /dev/null; then
        echo another > "$copy/target/commands.lock"
        flock "$copy/target/commands.lock" sleep 2 &
        while flock -n "$copy/target/commands.lock" true; do
            sleep 0.1
        done
        words="$name: waiting for another, which proves and builds the program"
    fi
    says 0 "$1" "$words" "${case1[@]}"
    wait
    says 0 "$1" '' "${case1[@]}"
}

# try_all GROUP..: the groups in turn, on a program that is built.
try_all() {
    local group
    "$command" "${case1[@]}" > /dev/null ||
        { echo "$name: case 1 is not accepted"; exit 1; }
    for group in "$@"; do
        $group
    done
    [ "$differing" = 0 ] || { echo "$name: $differing of $cases not as expected"; exit 1; }
    echo "$name: all $cases as expected"
}
