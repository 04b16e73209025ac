# shellcheck shell=sh disable=SC2034,SC2154
# What price and compare share beside the words: files are read into copies, a program is run on these, and its listing is printed only
# where it is whole. Read by `.`, by a script that has set who to its name and says what a whole listing is (is_whole); what is wrong is
# said on standard error.

# The pricing reads so many bytes of a file; what follows changes nothing.
most_bytes=65536

# Makes a folder for the copies, which is removed at the end, on a signal too: nothing lies between its making and the traps.
make_work() {
    work='' finished=''
    trap 'clear_work' EXIT
    trap 'exit 129' HUP
    trap 'exit 130' INT
    trap 'exit 143' TERM
    trap 'fail_output' PIPE
    work=$(trap '' HUP INT TERM; exec mktemp -d) || exit 2
}

# The program started last is a reader that is still at work, or it is the one that has finished. A reader that has only just started
# still has the traps of this shell, and no other signal than 9 would end it for certain.
clear_work() {
    [ "$!" = "$finished" ] || kill -9 "$!" 2>/dev/null
    [ ! "$work" ] || rm -rf "$work"
}

# A name without what could garble a terminal.
shown_name() {
    printf '%s' "$1" | LC_ALL=C tr '[:cntrl:]' '[?*]'
}

# Sets reason to why a copy is not the file's: nothing is known of the file itself.
lose_copy() { # NAME WHY
    lost=yes
    reason="a copy that could not be written to ${TMPDIR:-/tmp} ($2): $1"
}

# Waits for the reader that was started last. A shell that waits is ended by a signal at once, one that runs a program is not. Where it
# failed, sets reason: a regular file is read again, without a copy, to tell whether it is the file that cannot be read.
wait_for_reader() { # COPY NAME [FILE]
    wait "$!"
    ended=$?
    finished=$!
    [ "$ended" -ne 0 ] || return
    if [ -f "$3" ]; then
        said=$(LC_ALL=C head -c "$most_bytes" "$3" 2>&1 >/dev/null)
    else
        said=$(grep 'error reading' "$1.said")
    fi
    if [ "$said" ]; then
        reason="a read that failed (${said##*: }): $2"
    else
        lose_copy "$2" 'is it full?'
    fi
}

# A copy has all bytes that are read of a regular file.
check_size() { # COPY FILE NAME
    [ -f "$2" ] || return
    size=$(wc -c <"$2") || size=-1
    copied=$(wc -c <"$1") || copied=-2
    [ "$size" -le "$most_bytes" ] || size=$most_bytes
    [ "$copied" -eq "$size" ] || lose_copy "$3" 'its size is not that of the file'
}

# Copies what is read of a file, or of standard input where it has no name. Where it cannot be read, sets reason and fails; lost is then
# set where it is the copy that could not be written.
copy_file() { # COPY [FILE]
    reason='' lost=''
    name_shown=$(shown_name "${2-standard input}")
    if [ $# -eq 1 ]; then
        if (exec 3<&0) 2>/dev/null; then
            exec 3<&0
            LC_ALL=C head -c "$most_bytes" <&3 >"$1" 2>"$1.said" &
            wait_for_reader "$1" "$name_shown"
            exec 3<&-
        else
            reason="a read that failed (it is closed): $name_shown"
        fi
    elif [ ! -e "$2" ]; then
        reason="no such file: $name_shown"
    elif [ -d "$2" ]; then
        reason="a folder, not a file: $name_shown"
    elif [ ! -r "$2" ]; then
        reason="a file that cannot be read: $name_shown"
    else
        LC_ALL=C head -c "$most_bytes" "$2" >"$1" 2>"$1.said" &
        wait_for_reader "$1" "$name_shown" "$2"
        [ "$reason" ] || check_size "$1" "$2" "$name_shown"
    fi
    [ ! "$reason" ]
}

# Runs a program, whose listing is $work/listing, and sets first and last to its first and its last line. The programs have no status
# of their own: what they could not read or write they say on standard error, and nothing else. Where something is said there, or the
# listing is not whole to its last line feed, sets reason and fails.
run_program() { # PROGRAM [ARGUMENT]..
    said=$("$@" 2>&1 >"$work/listing")
    ended=$?
    whole='' first='' last=''
    if [ -s "$work/listing" ]; then
        whole=' whole'
        IFS= read -r first <"$work/listing"
        last=$(tail -n 1 "$work/listing")
        [ "$ended" -eq 0 ] && [ ! "$said" ] && [ "$(tail -n 1 "$work/listing" | wc -l)" -eq 1 ] && is_whole && return
    fi
    [ ! "$said" ] || printf '%s\n' "$said" | LC_ALL=C tr '\000-\011\013-\037\177' '[?*]' >&2
    reason="the program ${1##*/} gave no$whole listing (status $ended, temporary files in ${TMPDIR:-/tmp})"
    false
}

# What standard output took before it failed cannot be taken back.
fail_output() {
    printf '%s: standard output could not be written\n' "$who" >&2
    exit 2
}

print_listing() {
    cat "$work/listing" || fail_output
}

print_text() { # TEXT
    printf '%s\n' "$1" 2>/dev/null || fail_output
}
