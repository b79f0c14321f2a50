#!/bin/sh
# Checks of scan.py, and of the modules of all recipes: sh tests/scan-checks.sh [PROGRAM]. These are the unit tests, the
# samples of ranges against their truths, the same by the short recipes, the page of report.py, feeds that must not look
# like an all-clear, and full disks.
. "$(dirname "$0")/checks.sh"

CPE=$program
export CPE
ranges=recipes/samples/ranges
doubts=recipes/samples/doubts

# scans WORD..: scan.py over the samples of ranges, with more words.
scans() {
    limited python3 recipes/scan.py --dictionary "$ranges/dictionary.json" --advisories "$ranges/advisories.json" \
        --matches "$ranges/matches.json" "$@" < /dev/null
}

# The lists of the samples, a machine each.
lists() { for list in "$ranges"/*.cdx.json "$ranges"/*.spdx.json "$ranges"/*-?.txt; do echo "$list"; done; }

runs_unit_tests() {
    for tests in tests/recipes/test_*.py; do
        what="unit tests of the recipes: $(basename "$tests" .py)"
        limited python3 -B -m unittest discover -s tests/recipes -p "$(basename "$tests")" > "$room/out" 2>&1
        status=$?
        if [ "$status" = 0 ]; then
            pass "$what, $(sed -n 's/^Ran \([0-9]*\) .*/\1/p' "$room/out") of them"
        else
            fail "$what" "status $status"
            tail -n 12 "$room/out"
        fi
    done
}

# The orders of versions against the tools with these orders, if they are installed. (Python's modules are Debian's.)
compares_orders() {
    python=python3
    if /usr/bin/python3 -c 'import sys; sys.exit(sys.version_info < (3, 11))' 2> /dev/null; then python=/usr/bin/python3; fi
    limited "$python" -B tests/recipes/orders_against_tools.py 10000 "$program" > "$room/tried" 2> "$room/error" ||
        [ -s "$room/tried" ] || fail 'orders of versions against the tools' "$(tail -n 1 "$room/error")"
    while read -r line; do
        case $line in
            'the same: '*) pass "the order of versions of ${line#the same: }" ;;
            'SKIPPED: '*) line=${line#SKIPPED: }; skip "the order of versions of ${line%%:*}" "${line#*: }" ;;
            *) fail 'orders of versions against the tools' "$line" ;;
        esac
    done < "$room/tried"
}

# The vendors' answers, by hand, beside the verdicts: no affected pair is FALSE, no other one TRUE, and few are UNKNOWN.
counts_truths() {
    what='ranges of versions against their truths'
    # shellcheck disable=SC2046 # a word each
    scans --json --lists $(lists) > "$room/scan.json" 2> "$room/error"
    python3 tests/recipes/truths.py "$ranges/truths.txt" < "$room/scan.json" > "$room/out"
    status=$?
    cat "$room/out"
    judge "$what" "$status" 0 "$ranges/truths.out" "$ranges/table.said"
}

# The same for versions of packages, with and without their kinds in the lists.
counts_orders() {
    what='versions of packages against their truths'
    orders=recipes/samples/orders
    set -- --dictionary "$orders/dictionary.json" --advisories "$orders/advisories.json" --lists \
        "$orders/alpine-1.cdx.json" "$orders/bare-1.txt" "$orders/code-1.cdx.json" "$orders/deb-1.cdx.json" "$orders/rpm-1.cdx.json"
    limited python3 recipes/scan.py --json "$@" > "$room/scan.json" 2> "$room/error" < /dev/null
    python3 tests/recipes/truths.py "$orders/truths.txt" < "$room/scan.json" > "$room/out"
    status=$?
    cat "$room/out"
    judge "$what" "$status" 0 "$orders/truths.out" "$orders/table.said"
    limited python3 recipes/scan.py "$@" > "$room/out" 2> "$room/error" < /dev/null
    judge 'the table of versions of packages' $? 0 "$orders/table.out" "$orders/table.said"
}

# What lists and dictionaries leave open, by hand, beside the verdicts; and fewer are UNKNOWN if an option decides it.
counts_doubts() {
    set -- --dictionary "$doubts/dictionary.json" --advisories "$doubts/advisories.json" --lists "$doubts"/*-?.txt "$doubts"/*-db.txt "$doubts/box-1.cdx.json"
    what="what a list doesn't say against its truths"
    limited python3 recipes/scan.py "$@" --json < /dev/null > "$room/scan.json" 2> "$room/error"
    python3 tests/recipes/truths.py "$doubts/truths.txt" < "$room/scan.json" > "$room/out"
    status=$?
    cat "$room/out"
    judge "$what" "$status" 0 "$doubts/truths.out" "$doubts/table.said"
    limited python3 recipes/scan.py "$@" < /dev/null > "$room/out" 2> "$room/error"
    judge "the table of what a list doesn't say" $? 0 "$doubts/table.out" "$doubts/table.said"
    limited python3 recipes/scan.py "$@" --strict --hardware none < /dev/null > "$room/out" 2> "$room/error"
    judge "the same with --strict and --hardware none" $? 0 "$doubts/strict.out" "$doubts/table.said"
}

# The same for the lists of tools: all names of a component are read, wherever a tool writes them, and a component with
# only a package URL (trivy-1, trivy-2) gets the names of names.txt.
reads_lists() {
    of=recipes/samples/lists
    set -- --dictionary "$of/dictionary.json" --advisories "$of/advisories.json" --lists
    limited python3 recipes/scan.py "$@" "$of"/shop-* "$of"/java-* "$of"/build-* "$of"/trivy-* > "$room/out" 2> "$room/error"
    judge 'the table of the lists of tools' $? 0 "$of/table.out" "$of/table.said"
    sh recipes/inventory.sh --machines "$of"/shop-* "$of"/java-* "$of"/build-* "$of"/trivy-* > "$room/machines.txt" 2> /dev/null
    limited python3 recipes/scan.py "$1" "$2" "$3" "$4" --machines "$room/machines.txt" > "$room/out" 2> "$room/said"
    status=$?
    sed "s|--machines .*|--lists $(echo "$of"/shop-* "$of"/java-* "$of"/build-* "$of"/trivy-*)|" "$room/said" > "$room/error"
    judge 'the same of the lines that inventory.sh writes of them' "$status" 0 "$of/table.out" "$of/table.said"
    limited python3 recipes/scan.py --json "$@" "$of"/shop-* "$of"/java-* "$of"/build-* "$of"/trivy-* > "$room/scan.json" 2> /dev/null
    python3 tests/recipes/truths.py "$of/truths.txt" < "$room/scan.json" > "$room/out"
    status=$?
    cat "$room/out"
    : > "$room/error"
    judge 'the lists of tools against their truths' "$status" 0 "$of/truths.out"
    limited sh recipes/inventory.sh "$of/trivy-1.json" > "$room/out" 2> "$room/error"
    judge 'an inventory of package URLs alone' $? 0 "$of/inventory.jsonl"
    echo 'pkg:generic/nothing -' > "$room/names.txt"
    sed 's/pkg:[a-z]*/pkg:generic/g' "$of/trivy-1.json" > "$room/trivy-3.json"
    limited sh recipes/inventory.sh --names "$room/names.txt" "$room/trivy-3.json" > "$room/out" 2> "$room/said"
    status=$?
    grep '^inventory.sh: ' "$room/said" > "$room/error"
    echo 'inventory.sh: trivy-3.json: no item in it' > "$room/wanted.said"
    judge 'no inventory of package URLs that no table names' "$status" 2 /dev/null "$room/wanted.said"
}

# Lists without CPE names: only package URLs, output of package managers, and locks, each against a list of their
# packages by hand.
reads_package_lists() {
    of=recipes/samples/lists
    lists=$(for list in "$of"/packages/*.json "$of"/packages/*.txt; do case $list in */truths.txt) ;; *) echo "$list" ;; esac; done)
    # shellcheck disable=SC2086 # a word each
    limited python3 recipes/scan.py --json --dictionary "$of/dictionary.json" --advisories "$of/advisories.json" --lists $lists \
        > "$room/scan.json" 2> "$room/said" < /dev/null
    sed 's/; to list them: .*//' "$room/said" > "$room/error"
    python3 tests/recipes/truths.py "$of/packages/truths.txt" < "$room/scan.json" > "$room/out"
    status=$?
    cat "$room/out"
    judge 'lists without names against their truths' "$status" 0 "$of/packages/truths.out" "$of/packages/table.said"
    # shellcheck disable=SC2086
    limited python3 recipes/scan.py --dictionary "$of/dictionary.json" --advisories "$of/advisories.json" --lists $lists \
        > "$room/out" 2> "$room/said" < /dev/null
    status=$?
    sed 's/; to list them: .*//' "$room/said" > "$room/error"
    judge 'the table of lists without names' "$status" 1 "$of/packages/table.out" "$of/packages/table.said"
    limited python3 bench/naming.py > "$room/out" 2> "$room/error"
    status=$?
    if [ "$status" = 0 ]; then pass "names of packages: $(sed -n 1p "$room/out")"; else fail 'names of packages' "status $status"; fi
}

shows_tables() {
    # shellcheck disable=SC2046
    scans --lists $(lists) > "$room/out" 2> "$room/error"
    judge 'the table of scan.py' $? 0 "$ranges/table.out" "$ranges/table.said"
    # shellcheck disable=SC2046
    scans --suppress "$ranges/suppress.txt" --lists "$ranges/web-1.cdx.json" "$ranges/app-1.txt" > "$room/out" 2> "$room/error"
    judge 'the table of scan.py with accepted ids' $? 1 "$ranges/accepted.out" "$ranges/accepted.said"
    limited sh recipes/whole-way.sh recipes/samples/dictionary.json recipes/samples/advisories.json recipes/samples/cyclonedx.json \
        > "$room/out" 2> "$room/error"
    judge 'the whole way over records of which some are odd' $? 1 recipes/samples/affected.out recipes/samples/affected.said
}

# The same verdicts by the short recipes, one step after the other, for each machine.
goes_step_by_step() {
    what='the short recipes and cpe evaluate say of each machine what scan.py says'
    needs "$what" awk sort || return
    sh recipes/dictionary.sh "$ranges/dictionary.json" > "$room/entries"
    sh recipes/advisories.sh --ranges "$room/ranges" "$ranges/advisories.json" > "$room/statements"
    cat "$room/entries" "$room/statements" > "$room/records"
    : > "$room/machines"
    for list in $(lists); do
        machine=$(basename "$list")
        sh recipes/inventory.sh "$list" | sed 's/.*"name":"\(.*\)"}/\1/; s/\\\\/\\/g' | tr '\n' ' ' > "$room/items"
        echo "${machine%%.*} $(cat "$room/items")" >> "$room/machines"
    done
    limited python3 recipes/decide.py --ranges "$room/ranges" --records "$room/records" --matches "$ranges/matches.json" \
        --machines "$room/machines" > "$room/decided" 2> "$room/said"
    # (only scan.py also finds the one item by its other name)
    while read -r machine items; do
        {
            cat "$room/records"
            for item in $items; do echo "$item"; done | sed 's/\\/\\\\/g; s/.*/{"do":"item","name":"&"}/'
            sed -n "s/^$machine	\(.*\)	\(.*\)/{\"do\":\"check\",\"system\":\"NVD\",\"href\":\"cpeMatch\",\"id\":\"\1\",\"result\":\"\2\"}/p" \
                "$room/decided"
        } | limited "$program" evaluate | sed -n "s/^verdict \(.*\) \(TRUE\|UNKNOWN\)$/$machine \1 \2/p"
    done < "$room/machines" | sort > "$room/steps"
    awk '$2 == "TRUE" || $2 == "UNKNOWN" { print $1, $3, $2 }' "$ranges/table.out" |
        grep -v '^desk-1 CVE-2024-98003 UNKNOWN$' | sort > "$room/wanted"
    cp "$room/steps" "$room/out"
    : > "$room/error"
    judge "$what" 0 0 "$room/wanted"
}

# refuses WHAT WORD..: scan.py ends with status 2, no table, and one line.
refuses() {
    what=$1
    shift
    limited python3 recipes/scan.py "$@" > "$room/out" 2> "$room/said" < /dev/null
    status=$?
    : > "$room/error"
    if [ "$(grep -c '^scan.py: ' "$room/said")" != 1 ] || [ "$(wc -l < "$room/said")" != 1 ]; then
        fail "$what" "it says: $(head -n 3 "$room/said")"
    else
        judge "$what: $(sed 's/^scan.py: //' "$room/said" | cut -c 1-60)" "$status" 2 /dev/null
    fi
}

# A missing feed must not look like an all-clear, wherever it is missing. (The unit tests have more faults.)
refuses_feeds() {
    needs 'feeds that are no feeds' wc || return
    : > "$room/empty.json"
    set -- --dictionary "$ranges/dictionary.json" --advisories "$ranges/advisories.json" --lists "$ranges/app-1.txt"
    for bad in none.json empty.json; do
        refuses "a dictionary that is none, $bad" --dictionary "$room/$bad" --advisories "$4" --lists "$6"
        refuses "advisories that are none, $bad" --dictionary "$2" --advisories "$4" "$room/$bad" --lists "$6"
        refuses "a software list that is none, $bad" --dictionary "$2" --advisories "$4" --lists "$6" "$room/$bad"
        refuses "machines that are none, $bad" --dictionary "$2" --advisories "$4" --machines "$room/$bad"
    done
    refuses 'no words'
    refuses 'a word that is no option' "$@" --jsn
    CPE=$room/none
    refuses 'no program' "$@"
    printf '#!/bin/sh\nif [ "$1" = advise ]; then exit 5; fi\nexec "%s" "$@"\n' "$program" > "$room/failing"
    chmod +x "$room/failing"
    CPE=$room/failing
    refuses 'a program that comes to no end' "$@"
    CPE=$program
}

# Output on a full disk is written whole, or not at all.
minds_disks() {
    set -- --lists "$ranges/app-1.txt"
    if [ -c /dev/full ]; then
        scans "$@" > /dev/full 2> "$room/said"
        status=$?
        grep -q '^scan.py: the output could not be written: ' "$room/said" || status="$status, and doesn't say so"
        : > "$room/out"
        : > "$room/error"
        judge 'a table to a full disk' "$status" 2 /dev/null
        scans "$@" 2> /dev/full > "$room/out"
        judge 'a table beside words to a full disk' $? 0 "$room/out"
    else
        skip 'a table to a full disk' 'there is no /dev/full'
    fi
    (ulimit -f 0; scans "$@" > "$room/out" 2> /dev/null)
    judge 'a table to a file that must not grow' $? 2 /dev/null
    (exec >&-; scans "$@" 2> /dev/null)
    judge 'a table to nowhere' $? 2 /dev/null
    scans "$@" > "$room/wanted" 2> /dev/null
    TMPDIR=$room/none scans "$@" > "$room/out" 2> "$room/error"
    judge 'a table without room for temporary files' $? 0 "$room/wanted"
}

# Feeds of several pages, in any order, and with one of them missing; the same advisories in two files; and the changes
# if an advisory isn't analysed any more, or isn't in the feeds.
reads_pages() {
    pages=recipes/samples/pages
    year=$pages/nvdcve-2.0-2024.json modified=$pages/nvdcve-2.0-modified.json
    # scans_pages OUT SAID WORD..: a scan with these words.
    scans_pages() {
        out=$1 said=$2
        shift 2
        limited python3 recipes/scan.py --machines "$pages/machines.txt" "$@" < /dev/null > "$out" 2> "$said"
    }
    scans_pages "$room/before.json" "$room/error" --json --dictionary "$pages"/dictionary-?.json --advisories "$year" "$modified"
    python3 tests/recipes/truths.py "$pages/truths.txt" < "$room/before.json" > "$room/out"
    judge 'pages and their truths' $? 0 "$pages/truths.out" "$pages/table.said"
    for order in "0 3 6" "6 0 3" "3 6 0"; do
        # shellcheck disable=SC2046,SC2086
        scans_pages "$room/out" "$room/error" --dictionary $(printf "$pages/dictionary-%s.json " $order) --advisories "$modified" "$year"
        judge "pages in the order $order" $? 0 "$pages/table.out" "$pages/table.said"
    done
    for gone in 0 3 6; do
        set --
        for page in 0 3 6; do [ $page = $gone ] || set -- "$@" "$pages/dictionary-$page.json"; done
        scans_pages "$room/out" "$room/error" --dictionary "$@" --advisories "$year"
        judge "a feed of which page $gone is missing" $? 2 /dev/null "$pages/missing-$gone.said"
    done
    scans_pages "$room/out" "$room/error" --partial --all --dictionary "$pages/dictionary-0.json" "$pages/dictionary-6.json" \
        --advisories "$year" "$modified"
    judge 'a feed of which a page may be missing' $? 1 "$pages/partial.out" "$pages/partial.said"
    scans_pages "$room/scan.json" "$room/error" --json --dictionary "$pages"/dictionary-?.json --advisories "$pages"/CVE-*.json "$year" "$modified"
    python3 tests/recipes/truths.py "$pages/truths-records.txt" < "$room/scan.json" > "$room/out"
    judge 'CVE records beside feeds, and their truths' $? 0 "$pages/truths-records.out" "$pages/records.said"
    if needs 'feeds in archives' tar gzip; then
        tar -czf "$room/nvdcpe-2.0.tar.gz" -C "$pages" dictionary-6.json dictionary-0.json dictionary-3.json
        gzip -c "$year" > "$room/nvdcve-2.0-2024.json.gz"
        tar -cf "$room/cves.tar" -C "$pages" CVE-2024-97005.json CVE-2024-97006.json
        scans_pages "$room/out" "$room/error" --dictionary "$room/nvdcpe-2.0.tar.gz" --advisories "$room/cves.tar" "$modified" \
            "$room/nvdcve-2.0-2024.json.gz"
        judge 'feeds in archives' $? 0 "$pages/records.out" "$pages/records.said"
    fi
    scans_pages "$room/after.json" "$room/error" --json --dictionary "$pages"/dictionary-?.json --advisories "$pages/nvdcve-2.0-later.json"
    limited sh recipes/changes.sh "$room/before.json" "$room/after.json" > "$room/out" 2> "$room/error"
    judge "what isn't analysed any more, or isn't there, is gone and not FALSE" $? 1 "$pages/changes.out" "$pages/changes.said"
}

# Machines in a file of lines, names of files that begin with a hyphen, and packed feeds.
reads_machines() {
    printf 'web-1\t%s  %s\r\n\r\n bare\r\nodd cpe:/a:%%zz\r\n' \
        'cpe:2.3:a:openssl:openssl:1.1.1t:*:*:*:*:*:*:*' cpe:/a:vim:vim:9.0.1000 > "$room/machines.txt"
    scans --machines "$room/machines.txt" > "$room/out" 2> "$room/error"
    judge 'machines in lines with tabs and line ends of Windows' $? 1 "$ranges/machines.out" "$ranges/machines.said"
    needs 'files that begin with a hyphen, and packed ones' gzip || return
    cp "$ranges/app-1.txt" "$room/_app-1.txt"
    scans --lists "$room/_app-1.txt" 2> /dev/null | sed 's/^_app-1/-app-1/' > "$room/wanted"
    cp "$ranges/app-1.txt" "$room/-app-1.txt"
    gzip -c "$ranges/dictionary.json" > "$room/-d.json.gz"
    gzip -c "$ranges/advisories.json" > "$room/-a.json.gz"
    here=$PWD
    (cd "$room" && limited python3 "$here/recipes/scan.py" --dictionary -d.json.gz --advisories -a.json.gz --lists -app-1.txt) \
        < /dev/null > "$room/out" 2> "$room/error"
    judge 'files that begin with a hyphen, and packed ones' $? 0 "$room/wanted"
}

# Known exploited vulnerabilities, EPSS and gates over the samples: above all the status, and then the same in each
# form.
fits_gates() {
    threats=recipes/samples/threats
    # gated WORD..: a scan of two machines, with a wrong line of accepted advisories, so that something is left out.
    gated() {
        scans --suppress "$ranges/suppress.txt" --lists "$ranges/web-1.cdx.json" "$ranges/legacy-1.txt" \
            --time 2024-05-01T12:00:00Z "$@" 2> "$room/error" > "$room/out"
    }
    kev=$threats/known_exploited_vulnerabilities epss=$threats/epss_scores-2024-04-30.csv
    for form in table csv sarif cyclonedx-vex openvex; do
        gated --kev "$kev.json" --epss "$epss" --fail-on 'score>=9' --fail-on 'unknown and kev' --format "$form"
        judge "known exploited, EPSS and gates, as $form" $? 3 "$threats/$form.out" "$threats/table.said"
    done
    grep -v ' --fail-on ' "$threats/table.said" > "$room/ungated.said"
    gated --kev "$kev.csv" --epss "$epss" --fail-on 'score>=9.9'
    judge 'a gate that nothing fits, where something was left out' $? 1 "$threats/table.out" "$room/ungated.said"
    gated --kev "$kev.csv" --epss "$epss" --json
    cp "$room/out" "$room/kept.json"
    gated --kev "$kev.csv" --epss "$epss" --fail-on new --since "$room/kept.json"
    judge 'nothing is new against the same result' $? 1 "$threats/table.out" "$room/ungated.said"
    limited sh recipes/changes.sh "$room/kept.json" "$room/kept.json" > "$room/out" 2> "$room/error"
    judge 'nothing changed against the same result' $? 0 /dev/null
    limited python3 recipes/report.py "$room/kept.json" 2> "$room/error" |
        grep -o -e '>CVE-2024-980[01][09]<' -e 'known exploited since [0-9-]*' -e 'EPSS 0.[59]' > "$room/out"
    printf '%s\n' '>CVE-2024-98009<' 'known exploited since 2024-04-19' 'EPSS 0.5' '>CVE-2024-98010<' 'known exploited since 2024-04-11' \
        'EPSS 0.9' > "$room/wanted"
    echo 'left out suppress.txt line 5: it is not an id, a machine or *, and a reason' > "$room/wanted.said"
    judge 'the page has what is known exploited, and EPSS' 0 0 "$room/wanted" "$room/wanted.said"
    set -- --dictionary "$ranges/dictionary.json" --advisories "$ranges/advisories.json" --lists "$ranges/app-1.txt"
    head -c 900 "$kev.json" > "$room/kev.json"
    head -c 200 "$epss" > "$room/epss.csv"
    refuses 'a list of known exploited vulnerabilities that is cut off' "$@" --kev "$room/kev.json"
    refuses 'an EPSS that is cut off' "$@" --epss "$room/epss.csv"
    refuses 'a gate that is none' "$@" --fail-on 'score>9'
    refuses 'a form that is none' "$@" --format xml
    if needs 'EPSS that gzip packed' gzip; then
        gzip -c "$epss" > "$room/epss_scores.csv.gz"
        gated --kev "$kev.csv" --epss "$room/epss_scores.csv.gz"
        judge 'EPSS that gzip packed' $? 1 "$threats/table.out" "$room/ungated.said"
    fi
}

# The page of report.py over the samples, and in a browser, if there is one.
shows_pages() {
    scans --json --why --suppress "$ranges/suppress.txt" --lists "$ranges/web-1.cdx.json" "$ranges/app-1.txt" \
        > "$room/scan.json" 2> "$room/error"
    limited python3 recipes/report.py --title 'Two machines' "$room/scan.json" > "$room/page.html" 2> "$room/error"
    status=$?
    sed -n 's/.*<li class="\([A-Z]*\)"><b>\([0-9]*\).*/\2 \1/p; s/.*class="id">\([^<]*\).*/\1/p' "$room/page.html" > "$room/out"
    grep '^left out ' "$ranges/accepted.said" > "$room/wanted.said"
    judge 'the page of the samples: its counts, and its advisories by score' "$status" 1 "$ranges/page.out" "$room/wanted.said"
    needs 'the page in a browser: rows, counts, filter, odd names, 10,000 machines' chromium || return
    python3 -B tests/recipes/browser.py chromium "$room" > "$room/out" 2> "$room/error"
    status=$?
    if [ "$status" = 0 ]; then
        pass "the page in a browser, $(grep -c '^right: ' "$room/out") things looked at; $(grep ' open after ' "$room/out")"
    else
        fail 'the page in a browser' "status $status"
        grep -v '^right: ' "$room/out" | head -n 12
        tail -n 3 "$room/error"
    fi
}

if needs 'the recipes in Python' python3; then
    runs_unit_tests
    compares_orders
    counts_truths
    counts_orders
    counts_doubts
    reads_lists
    reads_package_lists
    shows_tables
    fits_gates
    shows_pages
    goes_step_by_step
    refuses_feeds
    minds_disks
    reads_pages
    reads_machines
fi
end_of_checks 'scan checks'
