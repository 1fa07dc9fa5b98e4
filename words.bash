# What is wrong with a file or a list, in words for standard error: commands.bash reads this file. Nothing here is
# proved, and it is asked only where the proved program has refused. A command whose list has no first line sets
# header_lines and noun, the tables, and explain_refusal anew.

# How many lines stand before those of the starts, and what such a line is of.
header_lines=1
noun=start

# The numbers that a list can lead to: 01's word for each, and when it is given.
word=([1]=length [2]=base [3]=reset [5]=code [6]='cut off' [7]=overlap [8]=flow [9]=widths [10]=return [14]=list)
given=(
    [1]="the list's length is not the image's, or is 0"
    [2]='the image ends above FFFFFF or, with a four-digit list, its bank'
    [3]='the reset address lacks the required start (m=0, x=0, kind N)'
    [5]='the code at a start is not carried'
    [6]='the instruction, or the code behind a prefix, runs past the image'
    [7]='a start inside the instruction'
    [8]='a successor, call target or address after a call is no marked start'
    [9]='one of those has other marks than it must have'
    [10]='RTS or RTL is not under its kind, or not at its return widths'
    [14]='the text is not a mark list'
)

# why_unread FILE LIMIT: why a file is not read, or nothing. A pipe or a device can't be read again, so it is not.
why_unread() {
    local said limit=${2/,/}
    if [ -e "$1" ] && [ ! -f "$1" ] && [ ! -d "$1" ]; then
        echo "over $2 bytes, or can't be read to its end"
    elif ! said=$(dd if="$1" bs=$((limit + 1)) count=1 2>&1 > /dev/null); then
        said=${said%%$'\n'*}
        echo "${said##*: }"
    elif [ "$(dd if="$1" bs=$((limit + 1)) count=1 2> /dev/null | wc -c)" -gt "$limit" ]; then
        echo "over $2 bytes"
    fi
}

explain_unread() {
    local of_image of_list
    of_image=$(why_unread "$image" "$image_limit")
    of_list=$(why_unread "$list" "$list_limit")
    [ -z "$of_image" ] || complain "${image:-''}: $of_image"
    [ -z "$of_list" ] || complain "${list:-''}: $of_list"
    [ -n "$of_image$of_list" ] || complain 'a file could not be read whole; it can be read now'
}

# The fields of a list's first line, by its form, for an answer other than 14. A pipe has been read already.
read_first_line() {
    local text form=$'^I\t([0-9A-F]{6})\t([0-9]{1,5})\t([0-9A-F]{6}|[0-9A-F]{4})$'
    [ -f "$list" ] && IFS= read -r text < "$list" && [[ $text =~ $form ]] || return
    base=${BASH_REMATCH[1]} length=${BASH_REMATCH[2]} reset=${BASH_REMATCH[3]}
}

# What is wrong with a line whatever it shows. A line has at most 21 characters; one of some more is told by its fields.
fault_of_bytes() {
    local before
    if [ -z "$closed$text" ]; then
        fault='no first line: the file is empty'
    elif [ -z "$text" ]; then
        fault='an empty line'
    elif [ "$at" = 1 ] && [[ $text == $'\xEF\xBB\xBF'* ]]; then
        fault='begins with a byte order mark (EF BB BF)'
    elif [ -n "$closed" ] && [[ $text == *$'\r' ]]; then
        fault='not closed by 0A alone'
    elif [[ $text == *[!$'\t'\ -~]* ]]; then
        before=${text%%[!$'\t'\ -~]*}
        fault="a byte that no list has, in column $((${#before} + 1))"
    elif [[ $text == *' '* ]]; then
        fault='a blank (20): fields are parted by one tab (09)'
    elif [ -z "$closed" ]; then
        fault='not closed by 0A'
    elif [ "${#text}" -gt 60 ]; then
        fault='too long'
    fi
}

# fault_of_hex NAME DIGITS COUNT
fault_of_hex() {
    if [[ ! $2 =~ ^[0-9A-Fa-f]{$3}$ ]]; then
        fault="$1 '$2' is not $3 hex digits"
    elif [[ $2 == *[a-f]* ]]; then
        fault="$1 $2 has small letters, hex letters are capitals"
    fi
}

fault_of_length() {
    if [[ ! $length =~ ^[0-9]{1,5}$ ]]; then
        fault="length '$length' is not 1 to 5 decimal digits"
    elif [[ $length == 0?* ]]; then
        fault="length $length has a leading zero"
    fi
}

# fault_of_first NAME DIGITS: of the first address of a list, whose digits are those of all: six, or four in an older
# list.
fault_of_first() {
    digits=6
    [ "${#2}" != 4 ] || digits=4
    fault_of_hex "$1" "$2" "$digits"
    fault=${fault/%is not 6 hex digits/is not 6 hex digits, nor 4}
}

fault_of_first_line() {
    local form=$'^I\t([^\t]*)\t([^\t]*)\t([^\t]*)$' tabs=${text//[!$'\t']/}
    if [[ $text != $'I\t'* ]]; then
        fault='the first line does not begin with I and a tab'
        return
    elif [[ ! $text =~ $form ]]; then
        fault="$((${#tabs} + 1)) fields where the first line has 4"
        return
    fi
    base=${BASH_REMATCH[1]} length=${BASH_REMATCH[2]} reset=${BASH_REMATCH[3]}
    fault_of_hex base "$base" 6
    [ -n "$fault" ] || fault_of_length
    [ -n "$fault" ] || fault_of_first reset "$reset"
    [ -n "$fault" ] || { low=$((16#${base: -digits})) end=$((low + length)); }
}

# An address not in the image, or not above the one before.
fault_of_address() {
    local value=$((16#$1))
    if [ "$value" -lt "$low" ] || [ "$value" -ge "$end" ]; then
        fault="address $1 is outside the image (base $base, length $length)"
    elif [ "$value" = "$last" ]; then
        fault="address $1 again"
    elif [ "$value" -lt "$last" ]; then
        fault="address $1 is below the one before"
    fi
    last=$value
}

# What is wrong with a line of a start that is not of the form.
fault_of_start() {
    local form=$'^([^\t]*)\t([^\t]*\t[^\t]*)\t([^\t]*)\t([^\t]*\t[^\t]*)$' tabs=${text//[!$'\t']/}
    local bits=$'^[01]\t[01]$'
    if [ "$header_lines" = 0 ] && [[ $text == $'I\t'* ]]; then
        fault="a first line (I), which a list of ${noun}s has not"
        return
    elif [[ ! $text =~ $form ]]; then
        fault="$((${#tabs} + 1)) fields where a $noun has 6"
        return
    fi
    local address=${BASH_REMATCH[1]} widths=${BASH_REMATCH[2]} kind=${BASH_REMATCH[3]} returns=${BASH_REMATCH[4]}
    if [ "$at" = 1 ]; then
        fault_of_first address "$address"
    else
        fault_of_hex address "$address" "$digits"
    fi
    if [ -n "$fault" ]; then
        return
    elif [[ ! $widths =~ $bits ]]; then
        fault='m or x is not 0 or 1'
    elif [[ $kind != [NSL] ]]; then
        fault="kind '$kind' is not N, S or L"
    elif [[ ! $returns =~ $bits ]]; then
        fault='return m or return x is not 0 or 1'
    else
        fault='under kind N return m and return x are 0'
    fi
}

# A text begins with the line of a start in four digits.
has_old_lines() {
    [[ $1 == ????$'\t'* ]]
}

# The first line of a list that is wrong, and what is wrong there, as LINE: WORDS; nothing where none is found. It is
# asked only where the proved answer is 14. A byte 00 is read as 01, which no list has either. Without a first line any
# address will do, and the first one's digits are those of all.
first_fault() {
    local at=0 text closed=yes fault='' base length reset digits=6 low=0 end=16777216 last=-1 form
    local four='[0-9A-F][0-9A-F][0-9A-F][0-9A-F]' fields=$'\t[01]\t[01]\t@(N\t0\t0|[SL]\t[01]\t[01])'
    while [ -z "$fault" ] && [ -n "$closed" ]; do
        IFS= read -r text || closed=
        [ "$at" = 0 ] || [ -n "$closed$text" ] || return
        at=$((at + 1))
        [ "$at$header_lines" != 10 ] || ! has_old_lines "$text" || digits=4
        form=$four$fields
        [ "$digits" = 4 ] || form=[0-9A-F][0-9A-F]$form
        if [ "$at" -gt "$header_lines" ] && [ -n "$closed" ] && [[ $text == @($form) ]]; then
            fault_of_address "${text:0:digits}"
            continue
        fi
        fault_of_bytes
        if [ -n "$fault" ]; then
            break
        elif [ "$at" -gt "$header_lines" ]; then
            fault_of_start
        else
            fault_of_first_line
        fi
    done < <({ dd if="$list" bs="${list_limit/,/}" count=1 | tr '\0' '\1'; } 2> /dev/null)
    echo "$at: $fault"
}

# Sets place and why by the first line of a list that is wrong. A pipe has been read already.
tell_fault() {
    local fault=
    [ ! -f "$list" ] || fault=$(first_fault)
    [ -z "$fault" ] || { place=$list:${fault%%: *} why=${fault#*: }; }
}

# explain_refusal NUMBER OFFSET: the number's word, the place, and what is wrong there.
explain_refusal() {
    local place=$list why=${given[$1]} base='' length='' reset=''
    [ "$1" = 14 ] || read_first_line
    case $1 in
    1) [ -z "$base" ] || [ ! -f "$image" ] || why="$why (list: $length, image: $(($(wc -c < "$image"))))" ;;
    2) why="$why${base:+ (base $base, length $length)}" ;;
    3) why="$why${base:+ at $reset}" ;;
    14) tell_fault ;;
    *)
        place="$image: at offset $2"
        [ -z "$base" ] || place="$place (address $(printf %06X $((16#$base + $2))))"
        # 'Those' are what 8 names.
        why=${why/#one of those/"${given[8]%% is *}"}
        why="$why (check --explain tells which)"
        ;;
    esac
    complain "refused, $1 ${word[$1]}: $place: $why"
}
