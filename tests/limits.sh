#!/bin/sh
# Tries the limits that no other check reaches, on the built program: sh tests/limits.sh [PROGRAM]. PROGRAM is build/cpe
# if left out. It takes minutes, and memory: if less than 6 GB is free, everything is SKIPPED, which is reported, and
# doesn't count as passed. No input is stored anywhere. The status is 0 if no check failed.
set -u

program=${1:-build/cpe}
case $program in /*) ;; *) program=$PWD/$program ;; esac
cd "$(dirname "$0")/.." || exit 2
[ -x "$program" ] || { echo "$program is no program: run make build first" >&2; exit 2; }

for tool in awk cmp mkfifo; do
    command -v "$tool" > /dev/null || { echo "LIMITS SKIPPED, all of them: there is no $tool"; exit 0; }
done
free=$(awk '/^MemAvailable:/ { print int($2 / 1024) }' /proc/meminfo 2> /dev/null)
if [ "${free:-0}" -lt 6144 ]; then
    echo "LIMITS SKIPPED, all of them: they want 6144 MiB of free memory, and here are ${free:-no one tells how many}"
    exit 0
fi

mkdir -p build
room=$(mktemp -d build/limits.XXXXXX) || exit 2
trap 'rm -rf "$room"' EXIT
trap 'exit 130' HUP INT TERM
failed=0

# Records up to a limit, and the first one above it; then records that are still accepted. Each maker prints the lines,
# or the answers to them, computed from numbers alone.
entries() {
    awk -v answers="$1" '
        function record(text) { number++; if (!answers) print text }
        function answer(text) { if (answers) print text }
        function name(n) { return "cpe:/a:v:p" int(n / 100) ":" n % 100 }
        function fs(n) { return "cpe:2.3:a:v:p" int(n / 100) ":" n % 100 ":*:*:*:*:*:*:*" }
        function add(n) { record("{\"do\":\"entry\",\"name\":\"" name(n) "\"}") }
        function look(n, state) { record("{\"do\":\"lookup\",\"name\":\"" name(n) "\"}"); answer("lookup " fs(n) " " state) }
        BEGIN {
            most = 2000000
            for (n = 0; n < most; n++) add(n)
            look(most - 1, "active")
            add(most)
            answer("refused " number " full entries")
            look(most, "absent")
            add(7)
            answer("refused " number " exists")
            # rows can still be edited, and an item is no entry
            record("{\"do\":\"deprecate\",\"name\":\"" name(0) "\",\"kind\":\"NAME_REMOVAL\",\"date\":\"2024-01-01\"}")
            look(0, "NAME_REMOVAL")
            record("{\"do\":\"item\",\"name\":\"" name(most) "\"}")
            add(most)
            answer("refused " number " full entries")
        }' < /dev/null
}

items() {
    awk -v answers="$1" '
        function record(text) { number++; if (!answers) print text }
        function answer(text) { if (answers) print text }
        function item(verb, n) { record("{\"do\":\"" verb "\",\"name\":\"cpe:/a:v:p" int(n / 100) ":" n % 100 "\"}") }
        BEGIN {
            most = 1000000
            for (n = 0; n < most; n++) item("item", n)
            item("item", most)
            answer("refused " number " full items")
            # the last is removed, and there is room again
            item("drop-item", most - 1)
            item("item", most)
            item("item", most - 1)
            answer("refused " number " full items")
        }' < /dev/null
}

# Statements of 3,000 facts each.
facts() {
    awk -v answers="$1" '
        function record(text) { number++; if (!answers) print text }
        function answer(text) { if (answers) print text }
        function put(id, count,   all) {
            for (; count > 0; count--) all = all (all ? "," : "") "{\"fact\":\"cpe:/a\"}"
            record("{\"do\":\"statement\",\"id\":\"" id "\",\"test\":{\"op\":\"OR\",\"of\":[" all "]}}")
        }
        BEGIN {
            for (n = 0; n < 333; n++) put(n, 3000)
            put("more", 1001)
            answer("refused " number " full facts")
            put("last", 1000)
            put("one", 1)
            answer("refused " number " full facts")
            # one without facts, and one in the room of a removed one
            record("{\"do\":\"statement\",\"id\":\"check\",\"test\":{\"op\":\"OR\",\"of\":[{\"check\":{\"system\":\"\",\"href\":\"\",\"id\":\"\"}}]}}")
            record("{\"do\":\"drop-statement\",\"id\":\"0\"}")
            put("more", 3000)
            put("one", 1)
            answer("refused " number " full facts")
        }' < /dev/null
}

# Statements of logical tests with one check each, which take the most memory for their weight, up to the full weight. A
# statement weighs 64 and its id, and each of these logical tests 64.
logical_tests() {
    awk -v answers="$1" '
        function record(text) { number++; if (!answers) print text }
        function answer(text) { if (answers) print text }
        function put(id, count,   all) {
            for (; count > 0; count--)
                all = all (all ? "," : "") "{\"op\":\"OR\",\"of\":[{\"check\":{\"system\":\"\",\"href\":\"\",\"id\":\"\"}}]}"
            record("{\"do\":\"statement\",\"id\":\"" id "\",\"test\":{\"op\":\"OR\",\"of\":[" all "]}}")
        }
        BEGIN {
            left = 536870912
            each = 64 + 5 + 64 * 700
            for (n = 10000; left >= each; n++) {
                put(n, 700)
                left -= each
            }
            put("more", 700)
            answer("refused " number " full weight")
            # a removed row gives its room back
            record("{\"do\":\"drop-statement\",\"id\":\"10000\"}")
            put(10000, 700)
            put("more", 700)
            answer("refused " number " full weight")
        }' < /dev/null
}

# Entries with titles of 60,000 bytes; an edit without weight, one byte too many, and the room after a restore and a
# removal. The weight of all accepted rows is added up here.
weight() {
    awk -v answers="$1" '
        function record(text) { number++; if (!answers) print text }
        function answer(text) { if (answers) print text }
        function full() { answer("refused " number " full weight") }
        function letters(count,   text) {
            for (text = "x"; length(text) < count; text = text text) { }
            return substr(text, 1, count)
        }
        function name(n) { return "cpe:2.3:a:v:" n ":*:*:*:*:*:*:*:*" }
        function named(n) { return 32 + length(name(n)) }
        function add(n, title) { record("{\"do\":\"entry\",\"name\":\"" name(n) "\",\"title\":\"" title "\"}") }
        # (a note weighs 32, the ten bytes of its date, and its comment)
        function deprecate(n, one, two, comment) {
            record("{\"do\":\"deprecate\",\"name\":\"" name(n) "\",\"kind\":\"ADDITIONAL_INFORMATION\",\"successors\":[\"" name(one) \
                "\",\"" name(two) "\"],\"date\":\"2024-01-01\",\"comment\":\"" comment "\"}")
        }
        function check(id, result) { record("{\"do\":\"check\",\"system\":\"\",\"href\":\"\",\"id\":\"" id "\",\"result\":\"" result "\"}") }
        BEGIN {
            left = 536870912
            long = letters(60000)
            for (n = 1000; left > 64000; n++) {
                add(n, long)
                left -= named(n) + 60000
            }
            deprecate(1000, 1001, 1002, letters(1000))
            left -= named(1001) + named(1002) + 42 + 1000
            add("p", "")
            left -= named("p")
            # an entry after which 400 are left, and before it one that weighs one too many
            title = letters(left - named("q") - 400)
            add("q", title letters(401))
            full()
            add("q", title)
            comment = letters(400 - named("p") - named(1001) - 42)
            deprecate("q", "p", 1001, comment "x")
            full()
            record("{\"do\":\"lookup\",\"name\":\"" name("q") "\"}")
            answer("lookup " name("q") " active")
            deprecate("q", "p", 1001, comment)
            # now nothing is left, for any kind of row
            add("r", "")
            full()
            record("{\"do\":\"item\",\"name\":\"cpe:/\"}")
            full()
            check("", "TRUE")
            full()
            record("{\"do\":\"statement\",\"id\":\"s\",\"test\":{\"op\":\"OR\",\"of\":[{\"fact\":\"cpe:/\"}]}}")
            full()
            record("{\"do\":\"amend\",\"name\":\"" name(1000) "\",\"kind\":\"ADDITIONAL_INFORMATION\",\"successors\":[\"" name(1001) \
                "\",\"" name(1002) "\"],\"date\":\"2024-01-01\"}")
            full()
            # other reasons have precedence over the weight
            add("q", long)
            answer("refused " number " exists")
            # a restore gives back the weight of the successors, and needs that of a note
            record("{\"do\":\"restore\",\"name\":\"" name("q") "\",\"date\":\"2024-01-02\"}")
            left = named("p") + named(1001) - 42
            check(letters(left - 31), "TRUE")
            full()
            check(letters(left - 32), "TRUE")
            check(letters(left - 32), "ERROR")
            check("", "TRUE")
            full()
            # removed rows weigh nothing any more
            record("{\"do\":\"drop-check\",\"system\":\"\",\"href\":\"\",\"id\":\"" letters(left - 32) "\"}")
            check("", "TRUE")
            check(letters(left - 63), "TRUE")
            full()
            check(letters(left - 64), "TRUE")
        }' < /dev/null
}

# Items of advise; a question over the last of them, and an advisory, which have a limit of their own.
advised_items() {
    awk -v answers="$1" '
        function record(text) { number++; if (!answers) print text }
        function answer(text) { if (answers) print text }
        function item(verb, n) { record("{\"do\":\"" verb "\",\"name\":\"cpe:/a:v:p" int(n / 100) ":" n % 100 "\"}") }
        BEGIN {
            most = 1000000
            for (n = 0; n < most; n++) item("item", n)
            item("item", most)
            answer("refused " number " full items")
            item("item", 7)
            answer("refused " number " exists")
            record("{\"do\":\"advisory\",\"id\":\"a\",\"name\":\"cpe:/a:v:p9999\",\"start\":\"98\"}")
            record("{\"do\":\"affected\",\"id\":\"a\"}")
            answer("affected a 2\nitem cpe:2.3:a:v:p9999:98:*:*:*:*:*:*:*\nitem cpe:2.3:a:v:p9999:99:*:*:*:*:*:*:*")
            # one is removed, and there is room again
            item("drop-item", most - 2)
            item("item", most)
            item("item", most - 2)
            answer("refused " number " full items")
        }' < /dev/null
}

advisories() {
    awk -v answers="$1" '
        function record(text) { number++; if (!answers) print text }
        function answer(text) { if (answers) print text }
        function put(n) { record("{\"do\":\"advisory\",\"id\":\"a" n "\",\"name\":\"cpe:/a:v:p" n % 1000 "\",\"end\":\"" n "\"}") }
        function drop(n) { record("{\"do\":\"drop-advisory\",\"id\":\"a" n "\"}") }
        BEGIN {
            most = 100000
            for (n = 0; n < most; n++) put(n)
            put(most)
            answer("refused " number " full advisories")
            put(7)
            answer("refused " number " exists")
            # an item has a limit of its own
            record("{\"do\":\"item\",\"name\":\"cpe:/a:v:p7:98007\"}")
            record("{\"do\":\"advisories\",\"name\":\"cpe:/a:v:p7:98007\"}")
            answer("advisories cpe:2.3:a:v:p7:98007:*:*:*:*:*:*:* 2\nadvisory a98007\nadvisory a99007")
            drop(99007)
            put(most)
            put(99007)
            answer("refused " number " full advisories")
            record("{\"do\":\"affected\",\"id\":\"a99007\"}")
            answer("affected a99007 absent")
        }' < /dev/null
}

# Items of advise with names of 60,000 bytes; an edit without weight, and one byte too many, for an item and for an
# advisory. The weight of all accepted rows is added up here.
advised_weight() {
    awk -v answers="$1" '
        function record(text) { number++; if (!answers) print text }
        function answer(text) { if (answers) print text }
        function full() { answer("refused " number " full weight") }
        function letters(count,   text) {
            for (text = "x"; length(text) < count; text = text text) { }
            return substr(text, 1, count)
        }
        function name(product) { return "cpe:2.3:a:v:" product ":*:*:*:*:*:*:*:*" }
        function item(product) { record("{\"do\":\"item\",\"name\":\"" name(product) "\"}") }
        function weighs(product) { return 32 + length(name(product)) }
        function put(id, first, last) {
            record("{\"do\":\"advisory\",\"id\":\"" id "\",\"name\":\"" name("p") "\",\"start\":\"" first "\",\"end\":\"" last \
                "\",\"end-excluded\":true}")
        }
        BEGIN {
            left = 536870912
            long = letters(60000)
            for (n = 1000; left > 64000; n++) {
                item(n long)
                left -= weighs(n long)
            }
            put("a", letters(200), letters(56))
            left -= weighs("p") + 1 + 256
            # an item after which 400 are left, and before it one that weighs one too many
            product = letters(left - weighs("") - 400)
            item(product letters(401))
            full()
            item(product)
            rest = 400 - weighs("p") - 1
            put("b", letters(rest - 256), letters(255) "xx")
            answer("refused " number " member end")
            put("b", letters(rest - 255), letters(256))
            full()
            put("b", letters(rest - 256), letters(256))
            # now nothing is left, for any kind of row; other reasons have precedence
            record("{\"do\":\"item\",\"name\":\"cpe:/\"}")
            full()
            record("{\"do\":\"advisory\",\"id\":\"c\",\"name\":\"cpe:/\"}")
            full()
            item(product)
            answer("refused " number " exists")
            put("b", letters(256), letters(256))
            answer("refused " number " exists")
            # removed rows weigh nothing any more
            record("{\"do\":\"drop-advisory\",\"id\":\"b\"}")
            item("y" letters(400 - weighs("")))
            full()
            item("y" letters(400 - weighs("") - 1))
            record("{\"do\":\"drop-item\",\"name\":\"" name(product) "\"}")
            record("{\"do\":\"affected\",\"id\":\"b\"}")
            answer("affected b absent")
            item(product "y")
            full()
            item(product)
        }' < /dev/null
}

# The most memory that the program has held, in MiB, read while it runs.
watches() {
    while sleep 1; do
        awk '/^VmHWM:/ { print int($2 / 1024) }' "/proc/$(cat "$room/process")/status" > "$room/look" 2> /dev/null || break
        [ -s "$room/look" ] && cp "$room/look" "$room/most"
    done
}

# tries WHAT WORD MAKER
tries() {
    rm -f "$room/process" "$room/most" "$room/wanted"
    mkfifo "$room/wanted"
    "$3" 1 > "$room/wanted" &
    "$3" '' | {
        # (a process in the background has no standard input unless one is named)
        exec 3<&0
        "$program" "$2" <&3 3<&- &
        echo $! > "$room/process"
        watches > /dev/null 3<&- &
        wait "$(cat "$room/process")"
        echo $? > "$room/status"
    } | cmp - "$room/wanted" > "$room/difference" 2>&1
    wait
    if [ "$(cat "$room/status")" != 1 ]; then
        failed=1
        echo "FAILED: $1: status $(cat "$room/status") in place of 1"
    elif [ -s "$room/difference" ]; then
        failed=1
        echo "FAILED: $1: $(cat "$room/difference")"
    else
        echo "ok: $1, $(cat "$room/most" 2> /dev/null || echo 'few') MiB"
    fi
}

# Names of cover: one too many, and one that is there.
covered_names() {
    awk -v answers="$1" '
        function name(n) { number++; if (!answers) print "cpe:/a:v:p" int(n / 100) ":" n % 100 }
        BEGIN {
            most = 1000000
            for (n = 0; n < most; n++) name(n)
            name(most)
            if (answers) print "refused " number " full names"
            name(7)
            number++
            if (!answers) print "cpe:/a:v"
            if (answers) print "refused " number " full names"
            if (answers) for (n = 0; n < most; n++) print "cpe:2.3:a:v:p" int(n / 100) ":" n % 100 ":*:*:*:*:*:*:*" | "LC_ALL=C sort"
        }' < /dev/null
}

# Names of 60,000 bytes; an edit without weight, and one byte too many. The weight of all accepted rows is added up
# here.
covered_weight() {
    awk -v answers="$1" '
        function letters(count,   text) {
            for (text = "x"; length(text) < count; text = text text) { }
            return substr(text, 1, count)
        }
        function name(product) { return "cpe:2.3:a:v:" product ":*:*:*:*:*:*:*:*" }
        function add(product) { number++; if (!answers) print name(product) }
        function full() { if (answers) print "refused " number " full weight" }
        function weighs(product) { return 32 + length(name(product)) }
        BEGIN {
            left = 536870912
            long = letters(60000)
            for (n = 1000; left > 64000; n++) {
                add(n long)
                left -= weighs(n long)
                kept[n] = n long
            }
            product = letters(left - weighs(""))
            add(product "x")
            full()
            add(product)
            add("y")
            full()
            add(product)
            add(toupper(1000 long))
            if (!answers) exit
            for (k = 1000; k < n; k++) print name(kept[k])
            print name(product)
        }' < /dev/null
}

tries '2,000,000 entries' resolve entries
tries '1,000,000 items' resolve items
tries '1,000,000 facts' resolve facts
tries 'a weight of 536,870,912' resolve weight
tries 'a weight of 536,870,912 of logical tests' resolve logical_tests
tries '1,000,000 items: advise' advise advised_items
tries '100,000 advisories' advise advisories
tries 'a weight of 536,870,912: advise' advise advised_weight
tries '1,000,000 names: cover' cover covered_names
tries 'a weight of 536,870,912: cover' cover covered_weight
exit "$failed"
