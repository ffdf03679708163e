# shellcheck shell=sh disable=SC2034,SC2154
# Functions and lines of an ELF file, for the tools that tell places in the source, which read this by `.`.

# functions_of ELF: the labels of its code by rising addresses: the byte address of each in hexadecimal digits, and its name. Absolute
# symbols, as the linker's __stack, are none, nor are those of data.
functions_of() {
    avr-nm -n -f sysv --defined-only -- "$1" 2> "$work/refusal" | awk -F '|' '
        { gsub(/ /, "") }
        $3 ~ /^[TtWw]$/ && $NF !~ /^\*/ && $2 "" < "00800000" { print $2, $1 }'
}

# The rows of the line tables of an ELF file. With what=rows it prints those that stand for code: byte address and line. With what=holes it
# prints which bytes of the section make a row that stands for none: the offset of the first, and how many. A function that the linker
# removed leaves a sequence of such rows. A row at the end of its sequence is one too.
# shellcheck disable=SC2016
line_rows='
    function tell(    i) {
        for (i = 1; i <= count && row_at[i] < at; i++) if (what == "rows") print row_at[i], row_line[i]
        if (what == "rows") return
        if (i == 1) print begin, offset - begin
        else for (; i <= count; i++) if (is_alone[i]) print row_offset[i], 1
    }
    /^ *Line Number Statements:/ { begin = -1; line = 1; count = 0 }
    !/^ *\[0x[0-9a-f]+\] / { next }
    { offset = number(substr($1, 4, length($1) - 4)) }
    begin < 0 { begin = offset }
    match($0, / to 0x[0-9a-f]+/) { at = number(substr($0, RSTART + 6, RLENGTH - 6)) }
    / Line by -?[0-9]+ to [0-9]+/ { line = $NF }
    $2 == "Copy" || $2 == "Special" {
        row_at[++count] = at; row_line[count] = line; row_offset[count] = offset
        is_alone[count] = $2 == "Copy" || / Address by 0 to /
    }
    /: End of Sequence/ { tell(); begin = -1; line = 1; count = 0 }
'
rows_of_lines() {
    LC_ALL=C avr-objdump --dwarf=rawline -- "$1" 2> "$work/refusal" | awk -v what="$2" "$awk_number$line_rows"
}

# find_lines ELF: sets $lined_elf to the file in which avr-addr2line is to look. It tells wrong lines where a line table has rows that stand
# for no code. Then the file is a copy in which operations that make no row stand in their place.
find_lines() {
    lined_elf=$1
    needs avr-addr2line
    needs avr-objdump
    rows_of_lines "$1" holes > "$work/holes"
    if [ ! -s "$work/holes" ]; then return; fi
    needs avr-objcopy
    avr-objcopy --dump-section ".debug_line=$work/lines" -- "$1" "$work/lined.elf" || fail "avr-objcopy can't read the lines of $1"
    od -A n -v -t o1 "$work/lines" | awk -v holes="$work/holes" '
        BEGIN { while ((getline hole < holes) > 0) { split(hole, part, " "); for (i = 0; i < part[2]; i++) is_hole[part[1] + i] } }
        { for (i = 1; i <= NF; i++) printf "\\0%s", at++ in is_hole ? "007" : $i }' > "$work/escapes"
    printf '%b' "$(cat "$work/escapes")" > "$work/lines"
    avr-objcopy --update-section ".debug_line=$work/lines" -- "$1" "$work/lined.elf" || fail "avr-objcopy can't write the lines of $1"
    lined_elf=$work/lined.elf
}

# look_up OPTION.. [ADDRESS]: what avr-addr2line tells of byte addresses, those on standard input where none is given, but for the
# compiler's numbers of places in one line.
look_up() {
    avr-addr2line -e "$lined_elf" "$@" > "$work/looked_up" || return
    sed 's/ (discriminator [0-9]*)$//' "$work/looked_up"
}
