#!/bin/sh
# Checks of the manual page and of the pages on crates: sh tests/manual-checks.sh [PROGRAM]. The manual page renders
# without a warning, its lists are those of the code, and its examples have the output in the page. The pages on crates
# agree with the sources.
. "$(dirname "$0")/checks.sh"

page=docs/cpe.1

# heads SECTION [SUBSECTION]: the bold words of each .TP there, one line each, sorted; slanted words are left out.
heads() {
    awk -v section="$1" -v part="${2-}" '
        /^\.SH / { at = substr($0, 5); part_at = "" }
        /^\.SS / { part_at = substr($0, 5) }
        at != section || part_at != part { next }
        is_head {
            is_head = 0
            gsub(/\\-/, "-")
            if ($1 == ".B") print substr($0, 4)
            else if (match($0, /^\.BI "[^"]*"/)) { head = substr($0, 6, RLENGTH - 6); sub(/ $/, "", head); print head }
            else if ($1 == ".BI") print $2
            else print "no head: " $0
        }
        $0 == ".TP" { is_head = 1 }' "$page" | sort
}

# codes FUNCTION FILE: the texts of a function in a specification, one line for each of its cases, sorted. A number or a
# name after a text is left out.
codes() {
    awk -v name="$1" '
        index($0, name " ") == 1 && / = / {
            text = ""
            rest = $0
            while (match(rest, /codes "[^"]*"/)) {
                text = text substr(rest, RSTART + 7, RLENGTH - 8)
                rest = substr(rest, RSTART + RLENGTH)
            }
            sub(/(\\n| )$/, "", text)
            if (text != "") print text
        }' "$2" | sort
}

# are_one WHAT: whether the lists in $room, of the code and of the page, have the same lines, and at least one.
are_one() {
    if [ ! -s "$room/code" ]; then
        fail "$1" 'no list was found in the code'
    elif cmp -s "$room/code" "$room/page"; then
        pass "$1: $(wc -l < "$room/code" | tr -d ' ') of them"
    else
        fail "$1" 'the code (<) and the page (>) have different ones'
        diff "$room/code" "$room/page" | grep '^[<>]'
    fi
}

# All reasons for which a line is refused. Two of them contain words of another list, at the end or in the middle.
reasons_of_code() {
    reasons=crates/line_replies/specs/Reasons.antt
    sed -n 's/.*= Err (codes "\(.*\)").*/\1/p' crates/line_session/specs/Session.antt
    codes name_reason_text crates/cpe_command/specs/Names.antt
    codes pair_reason_text crates/cpe_command/specs/Pairs.antt
    codes record_fault_text "$reasons" | grep -v -e '^name' -e '^attribute'
    codes spot_text "$reasons" | sed 's/^/name /'
    codes spot_text "$reasons" | sed 's/^/attribute /'
    codes edit_fault_text "$reasons" | grep -v '^full'
    codes which_word "$reasons" | sed 's/^/full /'
    codes convert_reason_text crates/convert_lines/specs/Convert.antt
    reasons=crates/advise_ranges/specs/Reasons.antt
    codes read_fault_text "$reasons"
    codes advice_fault_text "$reasons" | grep -v '^full'
    codes advice_which_word "$reasons" | sed 's/^/full /'
    codes names_which_word crates/cover_lines/specs/Reasons.antt | sed 's/^/full /'
}

# The limits, as a word and a number.
limits_of_code() {
    cat crates/cpe_rows/src/limits.rt crates/advise_ranges/src/limits.rt crates/cover_lines/src/limits.rt |
        sed -n 's/^pub const MOST_\([A-Z_]*\): u[a-z0-9]* = \([0-9_]*\);$/\1 \2/p' |
        tr -d _ | sed 's/^LEVELS/depth/; s/^IDBYTES/id/' | tr '[:upper:]' '[:lower:]'
    sed -n 's/^pub const LONGEST: usize = \([0-9]*\);$/line \1/p' crates/cpe_io/src/line.rt
    sed -n 's/^pub const MOST_BYTES: u64 = 1 << \([0-9]*\);$/\1/p' crates/line_session/src/session.rt | awk '{ n = 1; for (k = 0; k < $1; k++) n *= 2; printf "input %.0f\n", n }'
    sed -n 's/^pub const MOST_LINES: u32 = \([0-9_]*\);$/N \1/p' crates/drill_lines/src/line.rt | tr -d _
}

limits_of_page() {
    awk '
        /^\.SH / { at = $2 }
        at != "LIMITS" { next }
        is_number { gsub(/,/, "", $1); print word, $1; is_number = 0 }
        is_head { word = $2; is_head = 0; is_number = 1 }
        $0 == ".TP" { is_head = 1 }' "$page" | sort
}

compares_lists() {
    needs 'the lists of the manual page' awk sort wc || return
    reasons_of_code | sort -u > "$room/code"
    heads REASONS > "$room/page"
    are_one 'the reasons of the manual page are those of the code'

    limits_of_code | sort -u > "$room/code"
    limits_of_page > "$room/page"
    are_one 'the limits of the manual page are those of the code'

    sed -n 's/.*weighs bytes = \([0-9]*\) + bytes$/\1/p' crates/cpe_rows/specs/Weight.antt > "$room/code"
    sed -n 's/.*result of a check weighs \([0-9]*\)$/\1/p' "$page" > "$room/page"
    are_one 'what a row weighs at least on the manual page is that of the code'

    codes record_word crates/cpe_records/specs/RecordKinds.antt > "$room/code"
    heads RECORDS Kinds > "$room/page"
    are_one 'the kinds of records on the manual page are those of the code'

    codes key_of crates/cpe_records/specs/Keys.antt > "$room/code"
    heads RECORDS Members > "$room/page"
    are_one 'the members of records on the manual page are those of the code'

    codes advice_word crates/advise_ranges/specs/Reading.antt > "$room/code"
    heads 'RECORDS OF ADVISE' Kinds > "$room/page"
    are_one 'the kinds of records of advise on the manual page are those of the code'

    codes advice_key_of crates/advise_ranges/specs/Reading.antt > "$room/code"
    heads 'RECORDS OF ADVISE' Members > "$room/page"
    are_one 'the members of records of advise on the manual page are those of the code'

    for kind in kind_word note_kind_word mode_word operator_word truth_word; do
        codes "$kind" crates/cpe_records/specs/Words.antt
    done | sort > "$room/code"
    while read -r word; do
        sed -n '/^\.SS Members/,/^\.SH /p' "$page" | grep -qE "^\.[BIR]+ $word( |\$)" || continue
        echo "$word"
    done < "$room/code" > "$room/page"
    are_one 'the words of members stand on the manual page'

    codes usage crates/cpe_command/specs/Command.antt | sed 's/^usage: cpe //; s/ N//g' | tr '|' '\n' | sort > "$room/code"
    heads COMMANDS > "$room/page"
    are_one 'the commands of the manual page are those of the usage line'
    sed -n '/^\.SH SYNOPSIS/,/^\.SH DESCRIPTION/s/^\.BI* "*cpe \([a-z ]*[a-z]\)\( ".*\)*$/\1/p' "$page" | sort > "$room/page"
    are_one 'the commands of the synopsis are those of the usage line'

    {
        sed -n 's/^    [A-Z][A-Za-z]* = \([0-9]*\),$/\1/p' crates/line_session/src/status.rt
        sed -n 's/^const NO_WORDS: u8 = \([0-9]*\);$/\1/p' crates/cpe/src/main.rt
    } | sort > "$room/code"
    heads 'EXIT STATUS' > "$room/page"
    are_one 'the statuses of the manual page are those of the code'
}

# renders WHAT TOOL WORD..: a page renders without a warning, and isn't empty.
renders() {
    what="the manual page renders without a warning: $1"
    shift
    needs "$what" "$1" || return
    limited "$@" > "$room/rendered" 2> "$room/error"
    status=$?
    : > "$room/out"
    judge "$what" "$status" 0 /dev/null
}

renders_page() {
    # (if the system has no manuals, man may be a script that only says so)
    if has man && man --version > /dev/null 2>&1; then
        renders 'man' man --warnings -E UTF-8 -l "$page"
        grep -q 'refused 2 name 12' "$room/rendered" || fail 'the manual page renders: man' 'an example is missing'
    else
        skip 'the manual page renders without a warning: man' 'there is no man'
    fi
    renders 'groff' groff -ww -man -T utf8 "$page"
    what='mandoc finds nothing to complain about'
    needs "$what" mandoc || return
    limited mandoc -T lint "$page" > "$room/out" 2> "$room/error"
    judge "$what" $? 0 /dev/null
}

# (the installed program is the one in build/; whether that is up to date doesn't matter here)
installs_page() {
    what='make install puts the manual page where man finds it'
    needs "$what" make install || return
    [ -x build/cpe ] || { skip "$what" 'there is no build/cpe'; return; }
    MAKEFLAGS='' limited make -s -o program install DESTDIR="$room/installed" PREFIX=/usr > "$room/out" 2> "$room/error"
    status=$?
    : > "$room/out"
    judge "$what" "$status" 0 /dev/null
    cmp -s "$page" "$room/installed/usr/share/man/man1/cpe.1" || fail "$what" 'it is not there'
}

# Like sessions of a text: indented, and with each escape replaced by its byte.
examples() {
    awk '
        /^\.SH / { is_section = $0 == ".SH EXAMPLES" }
        $0 == ".EX" { is_example = is_section; next }
        $0 == ".EE" { is_example = 0; print "" }
        !is_example { next }
        {
            gsub(/\\\(aq/, "\047")
            gsub(/\\-/, "-")
            gsub(/\\&/, "")
            # (an unknown escape stays unchanged, and its session fails)
            gsub(/\\e/, "\\")
            print "    " $0
        }' "$page"
}

# docs/CITATIONS.md and docs/CONTRACTS.md agree with the sources. docs/ARCHITECTURE.md has each crate in one area, and
# the lines of its map are right. No line of a document and no cell of a table is too long, and each link has its
# target. Kept names are compared by counted looks, except as docs/TRUST.md says.
compares_documents() {
    for it in citations contracts areas edges documents looks; do
        needs "documents and sources: tests/$it.py" python3 || continue
        python3 "tests/$it.py" > "$room/out" 2> "$room/error"
        judge "documents and sources: tests/$it.py" $? 0 /dev/null
    done
}

renders_page
installs_page
compares_documents
compares_lists
examples > "$room/examples"
answers_sessions 'the examples of the manual page' < "$room/examples"
end_of_checks 'manual checks'
