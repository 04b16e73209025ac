# shellcheck shell=sh disable=SC2154
# What price and compare say of a refusal, in words: those of the table in docs/FUND-FILE.md. Read by `.` behind running.sh; everything
# is said on standard error. Who follows the advice has the premium of the same fund, or is told that it has none.

no_parts='its parts are other covers, with other premiums (docs/FUND-FILE.md, "Why a cover cannot be split")'
no_group='group 2 is for members who are replaced on leaving, and with others in it another fund is priced'

# Sets state to missing, open (without its line feed) or ended, and text to the line: at most 160 bytes of it, those that are no
# printable characters as numbers or letters behind a backslash.
read_line() { # COPY PLACE
    state=$(od -An -v -tu1 "$1" | awk -v place="$2" '
        function shown(byte) {
            if (byte == 92) return "\\\\"
            if (byte == 9) return "\\t"
            if (byte == 13) return "\\r"
            if (byte < 32 || byte > 126) return sprintf("\\%03o", byte)
            return sprintf("%c", byte)
        }
        BEGIN { line = 1 }
        {
            for (k = 1; k <= NF; k++) {
                if ($k == 10 && line++ == place) { ended = 1; exit }
                if ($k == 10 || line != place) continue
                if (++bytes <= 160) text = text shown($k + 0)
            }
        }
        END {
            if (bytes > 160)
                text = text " .. (cut)"
            sub(/^ /, "\\040", text)
            sub(/ $/, "\\040", text)
            print (ended ? "ended" : bytes ? "open" : "missing") " " text
        }')
    text=${state#* } state=${state%% *}
}

# Sets expected to how the line is spelled, and limits to what it takes.
expect_line() { # PLACE
    case $1 in
        1) expected='rates=NUMBER' limits='1900 to 2999' ;;
        2) expected='members=NUMBER' limits='1900 to 2999' ;;
        3) expected='horizon=NUMBER' limits='0 to 4,095' ;;
        4) expected='order=NUMBER' limits='1 to 12' ;;
        5) expected='frequency=NUMBER,NUMBER' limits='0 to 5,000, twice' ;;
        6) expected='deductible=NUMBER' limits='0 to 4,096' ;;
        7) expected='worth=NUMBER' limits='1 to 9,999,999' ;;
        *) expected='rate=AGE,DEATH,DISABILITY or member=AGE,GROUP,DEATH,DISABILITY,LIVES or end=COUNT' limits= ;;
    esac
}

# Refusal 1. A header text, unlike a file, ends with its seventh line.
explain_form() { # COPY PLACE [header]
    expect_line "$2"
    read_line "$1" $(($2 - 1))
    before=$text
    read_line "$1" "$2"
    wrong='the line is not spelled as it should be, is out of order, or the one that belongs here is missing'
    advice="write $expected here; a number has one to seven digits, with no sign, space, dot or leading zero"
    if [ "$2" -gt 7 ] && [ "$3" ]; then
        wrong='something follows the seventh line'
        advice='remove it: a header text has the lines rates= to worth=, and rates and members stand in the two sheets'
        return
    fi
    if [ "$state" = missing ]; then
        wrong='the line is missing, the file ends before it'
        advice="write the line that belongs there: $expected, with the fund's own number"
        [ "$2" -le 7 ] || advice="compare the member lines with the fund's list, since a file that was cut off ends like this too; if these are all, end=$(grep -c '^member=' "$1")"
        return
    fi
    case $2:$before in
        [1-7]:*) ;;
        *:end=*)
            wrong='something follows end='
            advice='end= is the last line: put member lines that belong to the fund above it and count them, and remove what does not'
            return ;;
    esac
    if [ "$state" = open ] && [ "$(wc -c <"$1")" -lt "$most_bytes" ]; then
        wrong='the last line has no line feed at its end'
        advice='a file that was cut off ends like this: write what is missing; if nothing is, end the line with a line feed'
        return
    fi
    case $2:$text in
        *'\r')
            wrong='the line ends in a carriage return'
            advice='save the file with line feeds alone at the ends of lines' ;;
        5:frequency=*,*) ;;
        5:frequency=*)
            advice="write two numbers, for death and for disability; a file from before the edition's method note has its one number twice, as in frequency=1000,1000" ;;
        [1-7]:*) ;;
        *:member=*,*,*,*,*) ;;
        *:member=*,*,*,*)
            advice='write five numbers: the last is how many lives the line stands for, and a line of four numbers from before takes ,1 behind it' ;;
        *:rate=*)
            advice='write rate=AGE,DEATH,DISABILITY, in front of the first member line; a number has one to seven digits' ;;
    esac
}

# Refusal 2.
explain_range() { # COPY PLACE
    expect_line "$2"
    read_line "$1" "$2"
    wrong='a number is outside its limits'
    advice="correct the number: ${expected%%=*}= takes $limits"
    case $2 in
        3) advice="$advice; it says where the listing stops, and the premium does not depend on it" ;;
        6) advice="$advice; a higher deductible cannot be priced in this unit (docs/FUND-FILE.md, \"The unit\")" ;;
    esac
    [ "$2" -gt 7 ] || return
    case $text in
        rate=*)
            wrong='a number is outside its limits, the age is not above the one before, q + i passes 1,000,000, or the rate lines are more than 121'
            advice="correct the line by the edition's table: ages rise, from 0 to 120, and each rate and their sum are at most 1,000,000" ;;
        member=*)
            wrong='a number is outside its limits, or the lives up to this line are more than 1,000 in all'
            advice="correct the number: age 0 to 120, group 1 or 2, amounts 0 to 65,535, lives 1 to 1,000 and in all at most 1,000. A fund of more lives cannot be priced by this program: $no_parts" ;;
        *)
            wrong='the count is not the number of member lines'
            count=$(sed "$2q" "$1" | grep -c '^member=')
            advice="compare the member lines with the fund's list: above stand $count, whatever their lives. If none is missing or too many, write end=$count" ;;
    esac
}

# The number in a header line of a file that was read.
number_in() { # COPY PLACE
    sed -n "$2s/^[a-z]*=//p" "$1"
}

# Refusal 10. The premium needs the cells below the deductible, and no other.
explain_wide() { # PLACE COPY
    wrong="the bound of the cell of the total claim $1 is above 250,000 units"
    deductible=$(number_in "$2" 6)
    if [ "$1" -ge "$deductible" ]; then
        advice="lower the horizon to less than $1 (but not below $((deductible > 0 ? deductible - 1 : 0))): it says where the listing stops, and the premium does not depend on it"
    else
        advice="this program cannot price the fund with this deductible: its premium needs the cell of $1. A lower deductible is another cover, with another premium"
    fi
}

# Sets wrong and advice for the refusals that are the same of a file and of sheets, and lines to the lines to be shown.
explain_fund() { # NUMBER PLACE [COPY]
    lines=
    case $1 in
        3)
            lines='1 2' wrong='the two editions differ'
            advice='use member data of the edition of the rates; another number in the line alone does not make it so' ;;
        4)
            lines='3 6' wrong='the deductible is above the horizon + 1'
            advice="raise the horizon to at least $(($(number_in "$3" 6) - 1)): it says where the listing stops, and the premium does not depend on it" ;;
        5)
            wrong="the member's age is below that of the first rate line, or there is no rate line"
            advice="add a rate line with the edition's own rates for that age, or correct the age if it is wrong; where the edition has none, the member cannot be priced with it" ;;
        6)
            wrong="the group 1 member's rates add to a half or more"
            advice="check the age, the group and the rates. If they are right, this program cannot price the fund: $no_group" ;;
        7)
            wrong='the load is above 8: for group 2 the expected number of claims, for each life of group 1 the larger figure (q + i)/p'
            advice="check rates, lives, groups and frequencies. If they are right, this program cannot price the fund: $no_parts" ;;
        8)
            lines=4 wrong='the order is too low for these rates: the truncation figure is above 10^8 units'
            advice='raise the order, up to 12: the exact premium does not depend on it, and the bound gets smaller. If 12 is too low, this program cannot price the fund'
            [ "$(number_in "$3" 4)" -lt 12 ] || advice="check the groups and the rates, 12 is the highest order. If they are right, this program cannot price the fund: $no_group" ;;
        9)
            wrong='a result slice has fewer than horizon + 1 cells'
            advice='lend longer slices' ;;
        10)
            lines='3 6'
            explain_wide "$2" "$3" ;;
        *)
            wrong='a refusal that is not in the table'
            advice='see docs/FUND-FILE.md' ;;
    esac
}

word_of() { # NUMBER
    case $1 in
        1) echo form ;; 2) echo range ;; 3) echo edition ;; 4) echo deductible ;; 5) echo unmatched ;; 6) echo half ;;
        7) echo load ;; 8) echo order ;; 9) echo short ;; 10) echo wide ;; 11) echo cell ;; *) echo refused ;;
    esac
}

show_lines() { # COPY PLACE..
    copy=$1
    shift
    for place; do
        read_line "$copy" "$place"
        printf '    line %s: %s\n' "$place" "$text" >&2
    done
}

# Says the refusal of a fund file, or of a header text; WHO begins with the program's name and ends with the file's.
say_refusal() { # WHO COPY NUMBER PLACE [header]
    state=missing text='' lines=''
    where=", line $4"
    case $3 in
        1) explain_form "$2" "$4" "$5" ;;
        2) explain_range "$2" "$4" ;;
        5 | 6) explain_fund "$3" "$4"; read_line "$2" "$4" ;;
        *) explain_fund "$3" "$4" "$2"; where= ;;
    esac
    printf '%s%s: %s (%s): %s\n' "$1" "$where" "$(word_of "$3")" "$3" "$wrong" >&2
    [ "$state" = missing ] || printf '    %s\n' "${text:-(an empty line)}" >&2
    # shellcheck disable=SC2086
    show_lines "$2" $lines
    printf 'what to do: %s\n' "$advice" >&2
}

# Shows the cells of a row, so many bytes each row.
show_row() { # COPY ROW WIDTH
    od -An -v -tf8 -j $((($2 - 1) * $3)) -N "$3" "$1" | awk '
        { for (k = 1; k <= NF; k++) text = text (text == "" ? "" : ", ") ($k ~ /nan|NaN/ ? "blank" : $k) }
        END { print "    " text }' >&2
}

# Says the refusal of a row; ROW counts from 1 in its sheet.
say_row_refusal() { # WHO COPY NUMBER ROW WIDTH LINE
    length=$(($(wc -c <"$2") - ($4 - 1) * $5))
    where="row $4"
    [ "$3" -eq 11 ] || where="row $4 (line $6 of the file with these rows)"
    case $3:$5 in
        11:*)
            wrong='a cell is not taken'
            advice="correct that row, titles not counted, by the fund's or the edition's own data: docs/FUND-FILE.md says what a cell may hold" ;;
        2:24)
            wrong='the age is not above the one before, q + i passes 1, or the rate rows are more than 121'
            advice="correct the row by the edition's table: ages rise, and the two rates add to at most 1" ;;
        2:*)
            wrong='the lives up to this row are more than 1,000 in all'
            advice="correct the number of lives. A fund of more than 1,000 cannot be priced by this program: $no_parts" ;;
        *) explain_fund "$3" 0 ;;
    esac
    if [ "$length" -lt "$5" ]; then
        wrong="the last row is cut short: $length bytes, where a row has $5"
        advice="write the sheet anew: ./sheet_bytes --columns $(($5 / 8)) makes whole rows"
    fi
    printf '%s, %s: %s (%s): %s\n' "$1" "$where" "$(word_of "$3")" "$3" "$wrong" >&2
    [ "$length" -lt "$5" ] || show_row "$2" "$4" "$5"
    printf 'what to do: %s\n' "$advice" >&2
}

# Says the refusal of a header text with two sheets, whose copies are $work/header, $work/rates and $work/members.
say_sheets_refusal() { # PROGRAM HEADER RATES MEMBERS NUMBER PLACE
    row=0
    case $5 in
        11) row=$6 ;;
        2 | 5 | 6) [ "$6" -le 7 ] || row=$(($6 - 7)) ;;
    esac
    rate_rows=$((($(wc -c <"$work/rates") + 23) / 24))
    if [ "$row" -eq 0 ]; then
        say_refusal "$1: $(shown_name "$2")" "$work/header" "$5" "$6" header
    elif [ "$row" -le "$rate_rows" ]; then
        say_row_refusal "$1: $(shown_name "$3")" "$work/rates" "$5" "$row" 24 $((row + 7))
    else
        say_row_refusal "$1: $(shown_name "$4")" "$work/members" "$5" $((row - rate_rows)) 40 $((row + 7))
    fi
}
