#!/bin/sh
# Checks of the short recipes: on their samples, on bad feeds, and with workers that die: sh tests/recipe-checks.sh
# [PROGRAM]. (tests/scan-checks.sh has the whole way, and the unit tests.)
. "$(dirname "$0")/checks.sh"

CPE=$program
export CPE
samples=recipes/samples

# recipe WHAT STATUS OUTPUT SAID COMMAND..: the output of a command, and its messages on standard error.
recipe() {
    what=$1 wanted_status=$2 wanted=$3 said=$4
    shift 4
    limited "$@" < /dev/null > "$room/out" 2> "$room/error"
    judge "$what" $? "$wanted_status" "$wanted" "$said"
}

# converts NAME SAMPLE: a recipe on its sample, which has odd records too.
converts() {
    needs "the recipe $1 on $2" python3 || return
    recipe "the recipe $1 on $2" 1 "$samples/$2.jsonl" "$samples/$2.said" sh "recipes/$1.sh" "$samples/$2.json"
    # (each record is accepted; the deprecations and statements of a dictionary need its entries alone)
    limited "$program" resolve < "$room/out" > "$room/refused" 2> "$room/error"
    status=$?
    mv "$room/refused" "$room/out"
    judge "the records of the recipe $1 on $2 are accepted" "$status" 0 /dev/null
}

# says WHAT STATUS LINE NAME FILE..: a recipe over feeds without a record; LINE is the beginning of its only message.
says() {
    what=$1 wanted_status=$2 front=$3 name=$4
    shift 4
    limited sh "recipes/$name.sh" "$@" > "$room/out" 2> "$room/said" < /dev/null
    status=$?
    : > "$room/error"
    if [ "$(head -c ${#front} "$room/said")" != "$front" ] || [ "$(wc -l < "$room/said")" -ne 1 ]; then
        fail "$what" "it says: $(head -n 3 "$room/said")"
    else
        judge "$what" "$status" "$wanted_status" /dev/null
    fi
}

# refuses_feeds NAME SAMPLE EMPTY STATUS SAID: bad feeds, alone and beside a good one. EMPTY is a good feed without
# records; STATUS and SAID are the status and the beginning of the message for it.
refuses_feeds() {
    needs "bad feeds: $1" python3 wc || return
    : > "$room/no-bytes.json"
    printf '%s' "$3" > "$room/no-records.json"
    printf '<html>too many requests</html>\n' > "$room/page.json"
    head -c 700 "$samples/$2.json" > "$room/torn.json"
    printf '[]\n' > "$room/array.json"
    printf '{"products":7,"vulnerabilities":7,"bomFormat":"CycloneDX","components":7}' > "$room/list.json"
    says "a feed without records: $1" "$4" "$5" "$1" "$room/no-records.json"
    for bad in no-bytes page torn array list none; do
        says "a feed that can't be read, $bad: $1" 2 "$1.sh: $bad.json: " "$1" "$room/$bad.json"
    done
    limited sh "recipes/$1.sh" "$room/torn.json" "$samples/$2.json" > "$room/out" 2> "$room/said" < /dev/null
    status=$?
    grep -v '^left out torn.json: ' "$room/said" > "$room/error"
    judge "a good feed beside a bad one: $1" "$status" 1 "$samples/$2.jsonl" "$samples/$2.said"
    gzip -c "$samples/$2.json" > "$room/$2.json.gz"
    sed "s/\\.json\$/&.gz/; s/$2.json: /$2.json.gz: /" "$samples/$2.said" > "$room/wanted.said"
    recipe "a feed that gzip packed: $1" 1 "$samples/$2.jsonl" "$room/wanted.said" sh "recipes/$1.sh" "$room/$2.json.gz"
    limited env CPE="$room/none" sh "recipes/$1.sh" "$samples/$2.json" > "$room/out" 2> "$room/error"
    status=$?
    echo "$1.sh: there is no $room/none" > "$room/wanted.said"
    judge "a recipe where there is no program: $1" "$status" 2 /dev/null "$room/wanted.said"
}

# affected WHAT STATUS OUTPUT SAID WORD..: a table for people.
affected() {
    what=$1 wanted_status=$2 wanted=$3 said=$4
    shift 4
    recipe "a table for people$what" "$wanted_status" "$wanted" "$said" sh recipes/affected.sh "$@"
}

makes_tables() {
    needs 'a table for people' python3 || return
    echo "left out the records: $(grep -c '^refused ' examples/inventory.out) lines refused" > "$room/wanted.said"
    affected '' 1 "$samples/table.out" "$room/wanted.said" examples/inventory.out
    sed '$d' examples/inventory.out > "$room/torn.out"
    echo 'affected.sh: torn.out: no whole table of verdicts: there are 3 of 4 verdicts' > "$room/wanted.said"
    affected ', of a run that was torn off' 2 /dev/null "$room/wanted.said" "$room/torn.out"
    sed '$d' "$samples/machines.out" > "$room/torn.out"
    echo 'affected.sh: torn.out: no whole table of verdicts: cpe evaluate, or a fleet, has not ended' > "$room/wanted.said"
    affected ', of a fleet that was torn off' 2 /dev/null "$room/wanted.said" "$room/torn.out"
    sed -n '/^verdicts /,$p' examples/inventory.out > "$room/unrefused.out"
    affected ', of a run without refused lines' 0 "$samples/table.out" /dev/null "$room/unrefused.out"
    sh recipes/advisories.sh --ranges "$room/ranges" --details "$room/details" "$samples/advisories.json" \
        > "$room/statements" 2> /dev/null
    affected ', of machines, with all that is known' 1 "$samples/machines.table" "$samples/machines.table.said" \
        --details "$room/details" --suppress "$samples/suppress.txt" --records "$room/statements" --ranges "$room/ranges" \
        "$samples/machines.out"
}

compares_runs() {
    what='what changed between two runs of a fleet'
    needs "$what" python3 || return
    sed 's/^web-1 CVE-2024-99003 UNKNOWN/web-1 CVE-2024-99003 TRUE/; s/^desk-1 CVE-2024-99007 TRUE/desk-1 CVE-2024-99007 FALSE/' \
        "$samples/machines.out" > "$room/after.out"
    printf '%s\n' 'changed web-1 CVE-2024-99003 UNKNOWN TRUE' 'gone desk-1 CVE-2024-99007 TRUE FALSE' > "$room/wanted"
    echo 'left out bare: no items' > "$room/wanted.said"
    recipe "$what" 1 "$room/wanted" "$room/wanted.said" sh recipes/changes.sh "$samples/machines.out" "$room/after.out"
}

# The output beside the verdicts, over the samples of ranges.
lists_items() {
    needs 'what is shown beside the verdicts' python3 grep || return
    makes_ranges
    recipe 'items that no entry of the dictionary has' 0 "$samples/unlisted.out" /dev/null \
        sh recipes/unlisted.sh "$room/ranged" "$room/ranged.txt"
    recipe 'items that perhaps are what an advisory names' 0 "$samples/perhaps.out" /dev/null \
        sh recipes/perhaps.sh "$room/ranged" "$samples/vague.txt" --ranges "$room/ranges"
    grep '^edge-1 ' "$room/ranged.txt" > "$room/edge.txt"
    limited sh recipes/products.sh --machines "$room/edge.txt" --records "$room/ranged" "$samples/ranges/advisories.json" \
        > "$room/cut.json" 2> "$room/error"
    status=$?
    grep -o '"id":"CVE-[0-9-]*"' "$room/cut.json" > "$room/out"
    judge 'advisories of the products of a machine' "$status" 0 "$samples/products.out" "$samples/products.said"
}

# A program in $room that is cpe, except that it once reads the beginning of its input and then kills the worker that
# started it, and once kills itself. (Both may hit the same piece, and a third death would give it up.) Runs of a fleet
# before its workers start have no statements, and aren't killed.
killing() {
    rm -rf "$room/killed."*
    {
        printf '#!/bin/sh\nprogram=%s room=%s\n' "'$program'" "'$room'"
        cat <<'END'
case $1 in resolve | unbind) ;; *) exec "$program" "$@" ;; esac
n=0 front=''
while [ $n -lt 25 ] && IFS= read -r line; do
    front="$front$line
"
    n=$((n + 1))
done
case $1$front in
unbind* | *'"do":"statement"'*)
    if mkdir "$room/killed.above" 2> /dev/null; then
        { printf '%s' "$front"; kill -9 $PPID; } | "$program" "$@"
        exit 1
    fi
    if mkdir "$room/killed.itself" 2> /dev/null; then
        { printf '%s' "$front"; kill -9 $$; } | "$program" "$@"
    fi
    ;;
esac
{ printf '%s' "$front"; cat; } | "$program" "$@"
END
    } > "$room/killing"
    chmod +x "$room/killing"
}

# killed WHAT: whether both deaths happened.
killed() {
    if ! [ -d "$room/killed.above" ] || ! [ -d "$room/killed.itself" ]; then fail "$1" 'nothing was killed'; fi
}

# The commands without state: the order, the numbers of refused lines and the statuses are those of one run.
goes_over_lines() {
    what='the words without state over GNU parallel'
    needs "$what" parallel python3 || return
    for times in 1 2 3 4 5 6 7 8; do awk 1 examples/mixed.txt; done > "$room/lines"
    limited "$program" unbind < "$room/lines" > "$room/wanted"
    limited env PIECE=30 WORKERS=4 sh recipes/fleet/lines.sh unbind < "$room/lines" > "$room/out" 2> "$room/error"
    judge "$what: unbind" $? 1 "$room/wanted"
    limited env PIECE=7 sh recipes/fleet/lines.sh bind fs < examples/names.out > "$room/out" 2> "$room/error"
    judge "$what: bind fs" $? 0 examples/names.txt
    limited sh recipes/fleet/lines.sh compare < /dev/null > "$room/out" 2> "$room/error"
    judge "$what: an empty input" $? 0 /dev/null
    killing
    limited env CPE="$room/killing" PIECE=30 WORKERS=2 sh recipes/fleet/lines.sh unbind < "$room/lines" > "$room/out" 2> "$room/error"
    judge "$what: pieces that are killed are done again" $? 1 "$room/wanted"
    killed "$what"
    printf '#!/bin/sh\nkill -9 $$\n' > "$room/killing"
    : > "$room/error"
    limited env CPE="$room/killing" sh recipes/fleet/lines.sh unbind < "$room/lines" > "$room/out" 2> "$room/said"
    judge "$what: a piece that never comes to its end" $? 5 /dev/null
}

# The records, machines and ranges of the samples of ranges, as the recipes make them.
makes_ranges() {
    of=$samples/ranges
    sh recipes/inventory.sh --machines "$of"/*.cdx.json "$of"/*.spdx.json "$of"/*-?.txt > "$room/ranged.txt" 2> /dev/null
    sh recipes/dictionary.sh "$of/dictionary.json" > "$room/ranged" 2> /dev/null
    sh recipes/advisories.sh --ranges "$room/ranges" "$of/advisories.json" >> "$room/ranged" 2> /dev/null
}

# items NAME..: records of these items. (A name in them is a text of JSON.)
items() {
    for item in "$@"; do printf '%s\n' "$item"; done | sed 's/[\"]/\\&/g; s/.*/{"do":"item","name":"&"}/'
}

# The results of their ranges, and the verdicts of cpe evaluate for each machine with these.
evaluates_ranges() {
    makes_ranges
    python3 -B recipes/decide.py --ranges "$room/ranges" --records "$room/ranged" --machines "$room/ranged.txt" \
        --matches "$samples/ranges/matches.json" > "$room/decided" 2> "$room/ranged.said"
    tab=$(printf '\t')
    while read -r machine items; do
        {
            cat "$room/ranged"
            # shellcheck disable=SC2086 # names, and no spaces in them
            items $items
            sed -n "s/^$machine$tab\(.*\)$tab\(.*\)/{\"do\":\"check\",\"system\":\"NVD\",\"href\":\"cpeMatch\",\"id\":\"\1\",\"result\":\"\2\"}/p" \
                "$room/decided"
        } | limited "$program" evaluate | sed -n "s/^verdict /$machine /p"
    done < "$room/ranged.txt" > "$room/ranged.out"
    echo "machines $(grep -c . "$room/ranged.txt")" >> "$room/ranged.out"
    # (a fleet also uses the present name of redislabs:redis, and then is less sure)
    sed 's/^desk-1 CVE-2024-98003 FALSE/desk-1 CVE-2024-98003 UNKNOWN/' "$room/ranged.out" > "$room/changed.out"
    mv "$room/changed.out" "$room/ranged.out"
    redis='cpe:2.3:a:redislabs:redis:6.2.5:*:*:*:*:*:*:*'
    {
        echo "remark not in the dictionary desk-1 $redis now called redis:redis"
        echo "remark desk-1: $redis is not in the dictionary, and may be cpe:2.3:a:redis:redis:6.2.5:*:*:*:*:*:*:*"
    } >> "$room/ranged.said"
    sort -o "$room/ranged.said" "$room/ranged.said"
}

# The machines of the sample by cpe evaluate, one by one.
makes_fleet() {
    cat "$samples/dictionary.jsonl" "$samples/advisories.jsonl" > "$room/records"
    while read -r machine items; do
        [ -n "$machine" ] || continue
        [ -n "$items" ] || { echo "$machine no items"; continue; }
        # shellcheck disable=SC2086 # names, and no spaces in them
        items $items | cat "$room/records" - | limited "$program" evaluate | sed -n "s/^verdict /$machine /p"
    done < "$samples/machines.txt" > "$room/evaluated"
    echo "machines $(grep -c . "$samples/machines.txt")" >> "$room/evaluated"
}

checks_fleet() {
    what='the machines of the sample are what cpe evaluate says of each'
    needs "$what" cat || return
    makes_fleet
    cp "$room/evaluated" "$room/out"
    : > "$room/error"
    judge "$what" 0 0 "$samples/machines.out"
}

# fleet WHAT COMMAND..: the machines of the sample, once undisturbed, and once with workers that are killed; and those
# of the ranges.
fleet() {
    fleet=$1
    shift
    # (a fleet, unlike cpe evaluate, considers what lists don't name: the one machine may have Debian, because its list
    # has no operating system, and the other may have the suite for desktops)
    sed -e 's/^desk-1 CVE-2024-99005 TRUE/desk-1 CVE-2024-99005 UNKNOWN/' -e 's/^odd CVE-2024-99007 FALSE/odd CVE-2024-99007 UNKNOWN/' \
        "$samples/machines.out" > "$room/fleet.out"
    recipe "$fleet" 1 "$room/fleet.out" "$samples/machines.said" "$@" "$room/records" "$samples/machines.txt"
    killing
    limited env CPE="$room/killing" "$@" "$room/records" "$samples/machines.txt" > "$room/out" 2> "$room/said" < /dev/null
    status=$?
    # (an engine may report by itself that a worker has ended)
    grep '^left out ' "$room/said" > "$room/error"
    judge "$fleet: workers that are killed lose nothing" "$status" 1 "$room/fleet.out" "$samples/machines.said"
    killed "$fleet"
    limited "$@" "$room/ranged" "$room/ranged.txt" --ranges "$room/ranges" --matches "$samples/ranges/matches.json" \
        > "$room/out" 2> "$room/said" < /dev/null
    status=$?
    sort "$room/said" > "$room/error"
    judge "$fleet: ranges are decided" "$status" 1 "$room/ranged.out" "$room/ranged.said"
}

goes_over_a_fleet() {
    cat "$samples/dictionary.jsonl" "$samples/advisories.jsonl" > "$room/records"
    needs 'a fleet' python3 || return
    evaluates_ranges
    if needs 'a fleet over GNU parallel' parallel; then
        fleet 'a fleet over GNU parallel' env WORKERS=2 sh recipes/fleet/parallel.sh
    fi
    for python in python3 /usr/bin/python3 ''; do
        if [ -n "$python" ] && "$python" -c 'import distributed' 2> /dev/null; then break; fi
    done
    if [ -z "$python" ]; then
        skip 'a fleet over Dask' 'no python3 has the module distributed'
    else
        fleet 'a fleet over Dask' "$python" -B recipes/fleet/dask_fleet.py --workers 2 --block 2
    fi
}

# What is nearly a snapshot is refused, or is another snapshot; tests/snapshots.py says which.
reads_snapshots() {
    what='snapshots, and bytes that are nearly one'
    needs "$what" python3 || return
    limited python3 -B tests/snapshots.py "$program" > "$room/tried" 2> "$room/error"
    status=$?
    grep '^FAILED' "$room/tried" > "$room/out"
    judge "$what" "$status" 0 /dev/null
}

# (the pages of more machines need those made above)
answers_readme() {
    what="the sessions of the recipes' README"
    needs "$what" python3 || return
    if needs "$what, of more machines" parallel; then
        answers_sessions "$what" < recipes/README.md
    else
        # (not in a pipe, where a subshell would count the failure)
        sed '/^## More than one machine/,$d' recipes/README.md > "$room/sessions"
        answers_sessions "$what" < "$room/sessions"
    fi
}

converts dictionary dictionary
converts dictionary matches
converts advisories advisories
converts inventory cyclonedx
converts inventory spdx
refuses_feeds dictionary dictionary '{"resultsPerPage":0,"startIndex":0,"totalResults":0,"format":"NVD_CPE","version":"2.0","products":[]}' \
    2 'dictionary.sh: no-records.json: no products'
refuses_feeds advisories advisories '{"resultsPerPage":0,"startIndex":0,"totalResults":0,"format":"NVD_CVE","version":"2.0","vulnerabilities":[]}' \
    2 'advisories.sh: no-records.json: no vulnerabilities'
refuses_feeds inventory spdx '{"spdxVersion":"SPDX-2.3","packages":[]}' 2 'inventory.sh: no-records.json: no item'
answers_readme
makes_tables
compares_runs
lists_items
goes_over_lines
checks_fleet
goes_over_a_fleet
reads_snapshots
end_of_checks 'recipe checks'
