"""Programs that are wrong in one thing, and copies that are altered in one place, with the checks that fail for it."""
import collections

# A program that is wrong in one thing, which stands behind this. Under all other words it is the right one.
#   edited WORDS EDIT         edits the output under these words, and keeps the status
#   ends WORDS STATUS OTHER   ends with the other status in place of this one
#   told WORDS TEXT           writes this to standard error at the end
#   more WORDS TEXT           writes a line more at the end
PROGRAM = """#!/bin/sh
cpe='{cpe}' room='{room}' words="$*" LC_ALL=C
export LC_ALL
edited() {{
    [ "$words" = "$1" ] || return 0
    "$cpe" $words > "$room/written"
    status=$?
    sed "$2" "$room/written"
    exit "$status"
}}
ends() {{
    [ "$words" = "$1" ] || return 0
    "$cpe" $words
    status=$?
    if [ "$status" = "$2" ]; then status=$3; fi
    exit "$status"
}}
told() {{
    [ "$words" = "$1" ] || return 0
    "$cpe" $words
    status=$?
    echo "$2" >&2
    exit "$status"
}}
more() {{
    [ "$words" = "$1" ] || return 0
    "$cpe" $words
    status=$?
    echo "$2"
    exit "$status"
}}
{wrong}
exec "$cpe" "$@"
"""

# What is wrong in words, the line of the program that is wrong, the tests that are run, and the checks that fail.
Wrong = collections.namedtuple("Wrong", "what line tests failing")

OF_NAMES = (
    Wrong(
        "a URI in capitals",
        r"edited 'bind uri' 's/^cpe:.a/cpe:\/A/'",
        ["test_names.Examples"],
        ["the texts of names as URIs"],
    ),
    Wrong(
        "a text that is lost on the way to a URI",
        "edited 'bind uri' '/^cpe:.o/s/linux/linus/'",
        ["test_names.Examples"],
        ["the real names bound as URIs and unbound again"],
    ),
    Wrong("another relation", "edited compare '1s/SUPERSET/SUBSET/'", ["test_names"], ["the pairs of names"]),
    Wrong("a word on standard error", "told compare compared", ["test_names"], ["the pairs of names"]),
    Wrong(
        "a status that hides refused lines",
        "ends unbind 1 0",
        ["test_names"],
        ["the mixed lines", "each byte in each gap: unbind", "lines about the greatest length"],
    ),
    Wrong(
        "a byte that a text can't have",
        "edited 'bind fs' '400s/.*/cpe:2.3:a/'",
        ["test_names.Examples", "test_names.Gaps"],
        ["each byte in each gap: bind fs"],
    ),
    Wrong(
        "a long line that is cut",
        '[ "$words" != unbind ] || { cut -b 1-65536 | "$cpe" unbind; exit; }',
        ["test_names.Gaps", "test_names.LongLines"],
        ["lines about the greatest length"],
    ),
    Wrong(
        "a command in capitals",
        '[ "$words" != Compare ] || exec "$cpe" compare',
        ["test_names.Usage"],
        ["a word in capitals"],
    ),
    Wrong(
        "a word too many",
        '[ "$words" != "cover names" ] || exec "$cpe" cover',
        ["test_names.Usage"],
        ["a word too many: cover"],
    ),
    Wrong("an empty word", '[ "$#,$1" != 1, ] || exec "$cpe" unbind', ["test_names.Usage"], ["an empty word"]),
    Wrong("no words", '[ "$#" != 0 ] || exec "$cpe" unbind', ["test_names.Usage"], ["no words"]),
)

OF_RECORDS = (
    Wrong(
        "an end that is spelled otherwise",
        "edited resolve 's/^end cpe/End cpe/'",
        ["test_records.Examples", "test_records.LongRecords"],
        ["a dictionary with deprecations", "names that are longer when they are written: resolve"],
    ),
    Wrong(
        "a title that is cut",
        "edited resolve 's/aaaa\"}$/aaa\"}/'",
        ["test_records.Examples", "test_records.LongRecords"],
        ["records about the greatest length"],
    ),
    Wrong("a change that is lost", "edited watch 1d", ["test_records.Examples"], ["a watched inventory"]),
    Wrong("a name that is lost", "edited cover 2d", ["test_records.Examples"], ["a list of names"]),
    Wrong(
        "an item that a question passes over",
        "edited resolve '/^maybe/d'",
        ["test_records.Searches"],
        ["searches and items beside comparisons with all names"],
    ),
    Wrong(
        "a record that convert loses",
        "edited convert '/\"id\":\"openssl-on-debian\"/d'",
        ["test_forms.Forms"],
        ["records and their forms: evaluate, inventory.jsonl"],
    ),
    Wrong(
        "another verdict of explain",
        "edited explain 's/^verdict openssl-on-debian /verdict openssl /'",
        ["test_forms.Certificates.test_each_certificate_of_explain_holds"],
        ["explain answers as resolve does: inventory.jsonl"],
    ),
    Wrong(
        "a certificate that check takes for a bad one",
        "edited check 's/^proof gnutls holds/proof gnutls fails/'",
        ["test_forms.Certificates.test_each_certificate_of_explain_holds"],
        ["certificates hold: inventory.jsonl"],
    ),
    Wrong(
        "a bad certificate that holds",
        "edited check 's/fails$/holds/'",
        ["test_forms.Certificates.test_a_second_program_makes_and_judges_the_same_certificates"],
        ["certificates of which a token is changed"],
    ),
)

OF_INPUT = (
    Wrong(
        "an input that is read to its end first",
        '[ "$words" != advise ] || { cat > "$room/given"; exec "$cpe" advise < "$room/given"; }',
        ["test_input.AtOnce", "test_input.Pieces"],
        ["an answer comes before the next line is sent: advise"],
    ),
    Wrong(
        "the first bytes of an input alone",
        '[ "$words" != cover ] || { head -c 100 | "$cpe" cover; exit; }',
        ["test_input.Pieces"],
        ["an input that comes in single bytes: cover"],
    ),
    Wrong("a byte in many lines", "edited unbind '2000s/./x/'", ["test_input.Volume"], ["3,000 lines: unbind"]),
    Wrong(
        "an answer to no line",
        "more check checked",
        ["test_input.Nothing"],
        ["an empty input: check", "a closed standard input ends with status 3: check"],
    ),
    Wrong(
        "a read that fails and is passed over",
        "ends resolve 3 0",
        ["test_input.Nothing", "test_input.FailingReads.test_a_first_read_that_fails_ends_with_status_3"],
        ["a closed standard input ends with status 3: resolve", "a read that fails ends with status 3: resolve"],
    ),
    Wrong(
        "an input that is read though none is asked for",
        '[ "$words" != "drill 16" ] || cat > "$room/given" 2>&1 || exit 3',
        ["test_input.Nothing"],
        ["a closed standard input is not read: drill"],
    ),
    Wrong(
        "an answer to a line that is torn off",
        "more advise 'affected a0 0'",
        ["test_input.FailingReads.test_a_line_that_is_torn_off_is_no_line"],
        ["a read that fails in mid-stream ends with status 3: advise, Advised"],
    ),
    Wrong(
        "a status that hides a read that fails",
        "ends compare 3 1",
        ["test_input.FailingReads.test_what_whole_lines_are_answered_is_written_before_a_read_fails"],
        ["a read that fails in mid-stream ends with status 3: compare"],
    ),
)

OF_OUTPUT = (
    Wrong(
        "a write that fails and is passed over",
        "ends save 4 0",
        ["test_output.FullDevice", "test_output.Closed"],
        ["a write that fails ends with status 4: save", "a closed standard output ends with status 4: save"],
    ),
    Wrong(
        "a usage that nobody gets",
        '[ "$words" != unbound ] || exit 2',
        ["test_output.FullDevice"],
        ["a write that fails ends with status 4: unbound"],
    ),
    Wrong(
        "the status of a signal",
        "ends cover 4 141",
        ["test_output.FullFile"],
        ["a write that fails in mid-stream ends with status 4: cover, Covered"],
    ),
    Wrong(
        "a word about a reader that is gone",
        "told watch 'a broken pipe'",
        ["test_output.Readers"],
        ["a reader that goes away ends the program with status 4: watch"],
    ),
    Wrong(
        "an abort if memory runs out",
        "ends 'drill 200000' 5 134",
        ["test_memory.NoRoom.test_no_room_for_generated_rows"],
        ["if memory runs out the status is 5: drill"],
    ),
    Wrong(
        "a name in a long list",
        "edited cover '$s/a/b/'",
        ["test_memory.Answers.test_products_in_some_versions_or_in_any"],
        ["3,000 products of five versions, and some in any: cover"],
    ),
)

OF_ROWS = (
    Wrong(
        "a count of items",
        "edited load 's/^items 1$/items 2/'",
        ["test_snapshots.Loaded.test_load_counts_the_rows_and_writes_their_table", "test_snapshots.Refused"],
        ["an item, from its snapshot", "a snapshot that comes in single bytes"],
    ),
    Wrong(
        "the version of a snapshot",
        "edited save '1s/CPESNAP1/CPESNAP2/'",
        ["test_snapshots.Written"],
        ["the snapshot of no rows", "the snapshot of an item; a question and a refused line write nothing"],
    ),
    Wrong(
        "a byte after a snapshot that is passed over",
        '[ "$words" != load ] || { head -c 57 > "$room/given"; exec "$cpe" load < "$room/given"; }',
        ["test_snapshots.Written", "test_snapshots.Refused"],
        ["a snapshot and a byte more"],
    ),
    Wrong(
        "a number that begins with zeros",
        '[ "$words" != "make 007" ] || exec "$cpe" make 7',
        ["test_generated.Generated.test_what_is_no_count_of_lines_is_refused"],
        ["a number that is none: make '007'"],
    ),
    Wrong(
        "a count of found entries",
        "edited 'drill 1000' 's/^found 250/found 251/'",
        [
            "test_generated.Generated.test_make_and_drill_write_their_vectors",
            "test_generated.Generated.test_drill_writes_what_evaluate_answers_to_the_lines_of_make",
        ],
        [
            "what generated lines come to: drill 1000",
            "the lines of make under evaluate come to what drill writes: 1000",
        ],
    ),
    Wrong(
        "a word that is no text, taken for a wrong word",
        '[ "$words" != "$(printf \'unbind\\377\')" ] || exit 2',
        ["test_calls.Calls.test_a_word_that_is_no_text_ends_with_status_7"],
        ["a word that is no text ends with status 7"],
    ),
)

# These run over a few vectors alone.
OF_VECTORS = (
    Wrong(
        "a table under resolve",
        '[ "$words" != resolve ] || exec "$cpe" evaluate',
        ["test_vectors.OtherCommands"],
        ["vectors of watch: resolve, changes-alone", "vectors: resolve, refused-alone"],
    ),
    Wrong(
        "a change that changes nothing",
        "more watch 'changed 9 s TRUE TRUE'",
        ["test_vectors.OtherCommands"],
        ["vectors of evaluate: watch, refused-alone", "vectors of resolve: watch, questions"],
    ),
    Wrong(
        "a table that is left out",
        "edited evaluate '/^verdicts/,$d'",
        ["test_vectors.OtherCommands"],
        ["vectors of resolve: watch, questions", "vectors of watch: evaluate, changes-alone"],
    ),
)
FEW_VECTORS = ("evaluate/refused-alone", "resolve/questions", "watch/changes-alone")

# What is altered in words, a file, a text in it, and what stands there in the copy; the tests that are run, and the
# checks that fail.
Altered = collections.namedtuple("Altered", "what path old new tests failing")

COPIES = (
    Altered(
        "an answer of a vector",
        "tests/vectors/convert/kinds-with-defaults.out",
        b'"do"',
        b'"Do"',
        ["test_vectors.Vectors"],
        ["vectors: convert, kinds-with-defaults", "vectors in single bytes: convert, kinds-with-defaults"],
    ),
    Altered(
        "a byte of a snapshot",
        "tests/vectors/save/an-item.out",
        b"\1",
        b"\2",
        ["test_vectors.Vectors"],
        ["vectors: save, an-item", "vectors in single bytes: save, an-item"],
    ),
    Altered(
        "a verdict",
        "tests/vectors/evaluate/statement-with-a-check.out",
        b"s FALSE",
        b"s TRUE",
        [
            "test_vectors.OtherCommands.test_the_changes_of_watch_come_to_the_table_of_evaluate",
            "test_snapshots.Loaded.test_the_table_of_saved_rows_is_that_of_evaluate",
        ],
        ["the table of saved rows: statement-with-a-check", "vectors of evaluate: watch, statement-with-a-check"],
    ),
    Altered(
        "a change",
        "tests/vectors/watch/changes-alone.out",
        b"TRUE none",
        b"TRUE FALSE",
        ["test_vectors.OtherCommands.test_resolve_and_evaluate_write_what_watch_writes_without_its_changes"],
        ["vectors of watch: evaluate, changes-alone"],
    ),
    Altered(
        "an example",
        "examples/wfn.out",
        b"cpe",
        b"CPE",
        ["test_names.Examples", "test_records.Examples"],
        ["the texts of names"],
    ),
    Altered(
        "a session of a document",
        "docs/PROFILE.md",
        b"wfn:[",
        b"Wfn:[",
        ["test_documents.Documents.test_sessions_write_what_the_documents_say"],
        ["the sessions of docs/PROFILE.md"],
    ),
    Altered(
        "a row of the table of words",
        "docs/RECORDS.md",
        b"`drill 8`<br>`refused 0`",
        b"`drill 8`<br>`refused 1`",
        ["test_documents.Documents"],
        ["the table of words in docs/RECORDS.md: drill 8"],
    ),
    Altered(
        "a session that fails at a call",
        "tests/failing_calls.py",
        b"import collections",
        b"print('ok: x/y: 1 run'); print('FAILED: a/b: read 7 fails: status 1'); raise SystemExit(1)",
        ["test_calls.Calls"],
        ["each read and each write that fails: a/b"],
    ),
    Altered(
        "what tries calls, broken off",
        "tests/failing_calls.py",
        b"import collections",
        b"print('ok: x/y: 1 run'); raise SystemExit(1)",
        ["test_calls.Calls"],
        ["each call that fails ends a session"],
    ),
    Altered(
        "a twin that writes something else",
        "bench/agree.py",
        b"import argparse",
        b"raise SystemExit('it differs')",
        ["test_bench.Bench.test_the_twins_write_what_the_program_writes"],
        ["the twins of bench/ write what the program writes"],
    ),
    Altered(
        "a measurement that is left out",
        "bench/all.sh",
        b"near snapshot",
        b"near",
        ["test_bench.Bench.test_make_bench_runs_every_measurement_and_names_those_that_failed"],
        ["make bench runs every measurement, and names those that failed"],
    ),
)
COPIED = ("tests/vectors", "tests/failing_calls.py", "examples", "docs/PROFILE.md", "docs/RECORDS.md", "bench/agree.py")
COPIED += ("bench/all.sh",)
