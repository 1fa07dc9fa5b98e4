# What the commands share, each a thin script over a proved program that takes an image file and a list file. A command
# sets these and reads this file:
#   name      the command's
#   crate     its program's, whose name ends in _files
#   usage     in one line
#   accepted  a pattern for what the program prints of an image that it accepts
# Then it defines the function help, and take_own_option where it has an option that the others have not, and ends by
# take_arguments "$@" and finish. One that takes more than two files ends by take_options "$@", its own choice of the
# files image and list among the operands, and finish.
user_locale=${LC_ALL-}
export LC_ALL=C

root=$(CDPATH='' cd -P "$(dirname "${BASH_SOURCE[0]}")" && pwd) || exit 3
# Held by the command that builds, with its name.
lock=$root/target/commands.lock

# use_crate CRATE: the program is this crate's. A command may have two, so that each has a stamp and a log of its own.
use_crate() {
    crate=$1
    program=$root/crates/$crate/out/$crate
    # As old as the beginning of the last build that succeeded.
    ready=$root/target/${crate%_files}.ready
    log=$root/target/log/${crate%_files}.log
}

use_crate "$crate"
# Set where a second line of the program explains the first.
explains=

image_limit=65,536
list_limit=61,440

. "$root/words.bash" || exit 3

complain() {
    printf '%s: %s\n' "$name" "$1" >&2
}

# Prints a text to standard output, or ends with status 2. With SIGPIPE ignored a reader that has gone is an error too.
put() {
    local words=
    trap '' PIPE
    { words=$(printf '%s\n' "$1" 2>&1 >&3); } 3>&1 && return
    complain "standard output: ${words##*: }"
    exit 2
}

numbers() {
    local number
    for number in "${!word[@]}"; do
        printf '%3d %-8s %s\n' "$number" "${word[number]}" "${given[number]}"
    done
}

# ends_help NOUN VERB: what each help says of the exit status and of standard error, and the numbers, with a noun for
# what is printed and a verb for what is done to an image.
ends_help() {
    cat << HELP
The status is 2 too where the $1 can't be printed, and 3 where the program
can't be built: the first run proves and builds it with rt. Standard error says
why an image is refused or not $2, and with --verbose how the build goes.

$(numbers)
HELP
}

# answers_help NOUN: what a help says of the answers to an image and its mark list.
answers_help() {
    cat << HELP
  R  number  offset  1  refused, with the number below and the decimal offset
                        of the instruction in the image; 0 for 1, 2, 3 and 14
  L                  2  not checked: LIST over $list_limit bytes, IMAGE over $image_limit,
                        a file that can't be read, or wrong arguments

$(ends_help "$1" checked)
HELP
}

# The version stands in the header.
version() {
    local text
    text=$(sed -n 's/^#define[[:blank:]]*M7700_VERSION[[:blank:]]*"\(.*\)".*/\1/p' "$root/include/m7700.h" 2> /dev/null)
    echo "$name ${text:-of unknown version}"
}

wrong_arguments() {
    put L
    complain "$1"
    complain "usage: $usage"
    exit 2
}

# The crates that the program is made of, one a line: those that crates.txt has behind its name, and behind theirs.
crates_needed() {
    awk -F: -v program="$crate" '
        function visit(name,    needs, count, i) {
            if (!(name in line) || seen[name]++) return
            print name
            count = split(line[name], needs, " ")
            for (i = 1; i <= count; i++) visit(needs[i])
        }
        { sub(/#.*/, "") }
        NF == 2 { split($1, word, " "); line[word[1]] = $2 }
        END { visit(program) }' "$root/crates.txt"
}

# Prints a source that is newer than the last build, if there is one. A folder is newer when a file in it has gone.
newer_source() {
    local needed sources=("$root/crates.txt")
    while IFS= read -r needed; do
        sources+=("$root/crates/$needed/"{src,specs,proofs})
    done < <(crates_needed)
    find "${sources[@]}" -newer "$ready" -print 2> /dev/null | head -n 1
}

is_ready() {
    newer=
    [ -x "$program" ] && [ -e "$ready" ] || return
    newer=$(newer_source)
    [ -z "$newer" ]
}

can_not_build() {
    complain "$1"
    exit 3
}

# Keeps what rt says, and shows which crate of how many is proved. Of each that it proves rt says first the name.
show_progress() {
    local line at=0 count proved=
    count=$(crates_needed | wc -l)
    while IFS= read -r line; do
        printf '%s\n' "$line"
        if [[ $line =~ ^'crate '([A-Za-z0-9_]+)': ' ]]; then
            proved=${BASH_REMATCH[1]}
        elif [[ $line == 'logic=proved '* && -n $proved ]]; then
            at=$((at + 1))
            [ -z "$verbose" ] || complain "$at of $((count)): $proved proved"
            proved=
        fi
    done > "$log"
}

# Waits for the call that builds now, where there is one and flock to tell; else it fails.
wait_for_build() {
    local builder
    command -v flock > /dev/null && ! flock -n 9 || return
    builder=$(cat "$lock")
    [ "${builder:-$name}" != "$name" ] || builder="another $name"
    complain "waiting for $builder, which proves and builds the program"
    flock 9
}

# Proves and builds the program, or says what failed and ends with status 3. rt builds a program to run it, so it is
# run without files once.
prove() {
    echo "$name" > "$lock"
    rm -f "$ready"
    : > "$ready.began"
    (cd "$root/crates/$crate" && LC_ALL=$user_locale exec rt run) < /dev/null 2>&1 | show_progress
    if [ "${PIPESTATUS[0]}" != 0 ] || [ ! -x "$program" ]; then
        tail -n 5 "$log" >&2
        can_not_build "rt run in crates/$crate failed; all that it said: $log"
    fi
    mv "$ready.began" "$ready"
}

# One call at a time builds, of whichever command, since their programs share crates; the others wait and may find it
# built.
build() {
    local reason=${newer:+"${newer#"$root/"} is newer than the program: "}
    command -v rt > /dev/null || can_not_build \
        "${reason}no command rt: the Rattle toolchain has to be installed to prove and build the program (README.md)"
    mkdir -p "$root/target/log" || can_not_build "can't write to $root/target"
    exec 9>> "$lock" || can_not_build "can't write to $root/target"
    if ! wait_for_build || ! is_ready; then
        complain "${reason}proving and building, which takes minutes where nothing is proved yet (log: $log)"
        prove
    fi
    exec 9>&-
}

# No file that is opened here may take the place of a closed input or output.
keep_descriptors() {
    { : 3<&0; } 2> /dev/null || exec < /
    { : 3>&1; } 2> /dev/null || { complain 'standard output: Bad file descriptor'; exit 2; }
}

# take_own_option OPTION: takes one that this command alone has, or fails.
take_own_option() {
    false
}

# Takes the options; what follows them are the operands.
take_options() {
    keep_descriptors
    verbose=
    [ ! -t 2 ] || verbose=yes
    while [ "$#" -gt 0 ]; do
        case $1 in
        -h | --help) put "$(help)"; exit 0 ;;
        --version) put "$(version)"; exit 0 ;;
        --verbose) verbose=yes ;;
        --) shift; break ;;
        -?*) take_own_option "$1" || wrong_arguments "no option $1" ;;
        *) break ;;
        esac
        shift
    done
    operands=("$@")
}

# Takes the options and the two files.
take_arguments() {
    take_options "$@"
    [ "${#operands[@]}" = 2 ] || wrong_arguments "two files are needed, not ${#operands[@]}"
    image=${operands[0]}
    list=${operands[1]}
}

# Puts the explanation on standard error as it is, where there is one; else it fails.
tell_explanation() {
    [ -n "$explanation" ] && printf '%s\n' "$explanation" >&2
}

# The program takes names that are text in UTF-8. So a file whose name is not all ASCII is opened here, where it can be,
# and lent under the name of its descriptor. A named pipe can't be opened again, so what it gives goes through another.
lend_files() {
    local at file descriptor
    for at in "${!operands[@]}"; do
        file=${operands[at]}
        [[ $file == *[!$'\x01'-$'\x7F']* ]] || continue
        if [ -p "$file" ]; then
            exec {descriptor}< <(exec cat < "$file")
        else
            { exec {descriptor}< "$file"; } 2> /dev/null || continue
        fi
        operands[at]=/dev/fd/$descriptor
    done
}

# Runs the program on the operands, prints what it answers, and exits by it.
finish() {
    local answer status explanation='' refused=$'^R\t([0-9]+)\t([0-9]+)$'
    is_ready || build
    lend_files
    answer=$("$program" "${operands[@]}")
    status=$?
    if [ -n "$explains" ] && [[ $answer == *$'\n'* ]]; then
        explanation=${answer#*$'\n'}
        answer=${answer%%$'\n'*}
    fi
    if [[ $status = 0 && $answer == @($accepted) ]]; then
        put "$answer"
        tell_explanation
        exit 0
    elif [[ $status = 0 && $answer =~ $refused ]]; then
        put "$answer"
        tell_explanation || explain_refusal "${BASH_REMATCH[1]}" "${BASH_REMATCH[2]}"
        exit 1
    elif [[ $status = 0 && $answer = L ]]; then
        put "$answer"
        explain_unread
        exit 2
    fi
    can_not_build "$program gave no answer (status $status)"
}
