#!/usr/bin/env bash
# Counts, in a checkout, the places of each point of the design pass in crates/*/src, and prints Markdown.
#   tools/old_forms.sh CHECKOUT        a table: one line for each kind of place, with its number, and a total for each point
#   tools/old_forms.sh CHECKOUT -v     and below the table each place, by crate and function
# It reads the layout that rt fmt keeps. Comments are not looked at.
set -u
export LC_ALL=C
top=${1:?usage: old_forms.sh CHECKOUT [-v]}
verbose=${2:-}
cd "$top" || exit 2
work=$(mktemp -d)
trap 'rm -rf "$work"' EXIT

# lines: crate, file:line, the line without its comment
for f in $(find crates -path '*/out' -prune -o -path '*/src/*' -name '*.rt' -print | sort); do
    c=${f#crates/}; c=${c%%/*}
    awk -v c="$c" -v f="$f" '{ s = $0; if (s !~ /^[ ]*(ghost|ensures|requires)/) sub(/(^|[ ])\/\/.*/, "", s); if (s != "") print c "\t" f ":" FNR "\t" s }' "$f"
done >"$work/lines"
# code: the same without ghost lines and clauses
awk -F'\t' '
    { s = $3; match(s, /^ */); ind = RLENGTH
      if (in_clause && ind > clause_ind) next
      in_clause = 0
      if (s ~ /^ *(ghost|requires\*?|ensures\*?)( |$)/) { in_clause = 1; clause_ind = ind; next }
      print }' "$work/lines" >"$work/code"
# fns: crate, file:line, name, signature, body
awk -F'\t' '
    function flush() { if (name != "") print crate "\t" place "\t" name "\t" sig "\t" body; name = "" }
    { s = $3; match(s, /^ */); ind = RLENGTH
      if (name == "" && s ~ /^ *(pub(\([a-z]+\))? )?(const )?(unsafe )?(extern "C" )?fn [a-z_0-9]+/) {
          crate = $1; place = $2; fn_ind = ind; body = ""; sig = s; stage = 1
          name = s; sub(/^.*fn /, "", name); sub(/[^a-z_0-9].*/, "", name)
          if (s ~ /;$/) { name = ""; next }
          if (s ~ /\{$/) stage = 2
          if (s ~ /\}$/) { body = s; sub(/^[^{]*\{/, "", body); flush() }
          next
      }
      if (name == "") next
      if (stage == 1) {
          if (ind == fn_ind && s ~ /^ *\{$/) { stage = 2; next }
          sig = sig " " s
          if (s ~ /\{$/ && ind == fn_ind) stage = 2
          next
      }
      if (ind == fn_ind && s ~ /^ *\}$/) { flush(); next }
      body = body " " s
    }' "$work/code" | sed 's/  */ /g' >"$work/fns"
# structs: crate, file:line, name, C or -, fields
awk -F'\t' '
    { s = $3 }
    s ~ /#\[repr\(C\)\]/ { c = 1; next }
    s ~ /^ *#\[/ { next }
    s ~ /^ *(pub )?struct [A-Za-z]+.*\{$/ { name = s; sub(/^ *(pub )?struct /, "", name); sub(/[^A-Za-z].*/, "", name); crate = $1; place = $2; fields = ""; on = 1; next }
    on && s ~ /^ *\}$/ { print crate "\t" place "\t" name "\t" (c ? "C" : "-") "\t" fields; on = 0; c = 0; next }
    on { fields = fields " " s; next }
    { c = 0 }' "$work/code" | sed 's/  */ /g' >"$work/structs"

echo 0 >"$work/total"
close() { if [ -n "${now:-}" ]; then printf '| **%s** | **total** | **%s** |\n' "$now" "$(cat "$work/total")"; fi; echo 0 >"$work/total"; }
now=
point() { # a point begins: its number and what it is
    close
    now=$1
    printf '\n### Point %s: %s\n\n| point | places | number |\n|---|---|---|\n' "$1" "$2"
}
counted() { # a title; the places on standard input, one a line. With a second word "kept" they are not in the total
    cat >"$work/places"
    local n; n=$(grep -c . "$work/places")
    if [ "${2:-}" = kept ]; then
        printf '| %s | %s | (%s) |\n' "$now" "$1" "$n"
    else
        echo $(($(cat "$work/total") + n)) >"$work/total"
        printf '| %s | %s | %s |\n' "$now" "$1" "$n"
    fi
    if [ "$verbose" = -v ]; then { printf '\n#### Point %s: %s\n\n' "$now" "$1"; sed 's/^/- /' "$work/places"; } >>"$work/said"; fi
}
code() { # the lines of code that match a pattern, of the crates that match a second one
    awk -F'\t' -v p="${2:-.}" '$1 ~ p' "$work/code" >"$work/some"
    cut -f3- "$work/some" | grep -nE "$1" | cut -d: -f1 >"$work/numbers"
    awk -F'\t' 'FILENAME == ARGV[1] { want[$1]; next } FNR in want { t = $3; sub(/^ */, "", t); print $2 ": " t }' "$work/numbers" "$work/some"
}
fns() { awk -F'\t' "$1"' { print $1 "::" $3 " (" $2 ")" }' "$work/fns"; }
structs() { awk -F'\t' "$1"' { print $1 "::" $3 " (" $2 "): " $5 }' "$work/structs"; }
: >"$work/said"

printf '## At %s\n' "$(git log -1 --format=%h 2>/dev/null || echo "$top")"
printf '\nA number in brackets is of places that stay for a reason that stands beside them, and is in no total.\n'

point 1 "own shapes of Option and Result, a flag with a value beside it, numbers for refusals"
structs '$4 == "-" && $5 ~ /(^| )(pub )?answer: u8,/' | counted 'structs with a field `answer: u8`'
structs '$4 == "C" && $5 ~ /(^| )(pub )?answer: u8,/' | counted 'structs with a field `answer: u8` that C lays out' kept
fns '$4 ~ /[(, ]answer: u8/ && $1 != "lines" && $1 != "delivery"' | counted 'functions whose parameter is an answer'"'"'s number (but for those that print it)'
code '[^a-z_](refuse|refused|declined|denied)\([^)]*(answer|[0-9]+)\)' | grep -v ' fn \|fn ' | counted 'calls of `refuse`, `refused`, `declined`, `denied` with an answer'"'"'s number'
code '^.*answer: [0-9]+,$' | counted 'records with `answer: NUMBER` written out'
code '\.answer (!=|==) 0' 'board|delivery|register|send|session$|shard$|verdict|window' | counted 'tests `answer != 0`'
fns '$3 == "no_front"' | counted 'a value that stands for none (`no_front`: an end of 0)'

point 2 "twins: groups of functions or parts that differ only in a type, a size, a constant or a test"
# A group is there while each of its functions is, with a body of the shape that made it a twin: crate/function/body, parted by blanks.
: >"$work/twins"
twin() { # a title, and then each function as crate/name/regular expression on the body
    local title=$1; shift
    local one c n re
    for one in "$@"; do
        c=${one%%/*}; one=${one#*/}; n=${one%%/*}; re=${one#*/}
        awk -F'\t' -v c="$c" -v n="$n" -v re="$re" '$1 == c && $3 == n && $5 ~ re { found = 1 } END { exit !found }' "$work/fns" || { echo "gone: $title" >>"$work/gone"; return; }
    done
    echo "$title" >>"$work/twins"
}
: >"$work/gone"
two='if ([a-z]+) <= [a-z0-9]+ \{'
twin 'frames: `cat2`, `cat4` (two halves of a number)' 'frames/cat2/as u16' 'frames/cat4/as u32'
twin 'frames: `u16_at`, `u32_at`' 'frames/u16_at/cat2' 'frames/u32_at/cat4'
twin 'frames: `put16`, `put32`' 'frames/put16/256' 'frames/put32/65536'
twin 'frames: `put_operation`, `put_read` (two bytes and four)' 'frames/put_operation/put8.*put8.*put32' 'frames/put_read/put8.*put8.*put32'
twin 'frames: `put_submit`, `put_shard_append` (one byte, two, two)' 'frames/put_submit/put8.*put16.*put16' 'frames/put_shard_append/put8.*put16.*put16'
twin 'frames: `put_exec_notif`, `put_response` (one byte and two)' 'frames/put_exec_notif/put8.*put16' 'frames/put_response/put8.*put16'
twin 'entry: `part_on`, `gets_of`, `reads_of` (the items of a list that pass a test)' 'entry/part_on/with.*with.*with.*with' 'entry/gets_of/with.*with.*with.*with' 'entry/reads_of/with.*with.*with.*with'
twin 'entry: `same_operations`, `fits` (two lists compared by a test)' 'entry/same_operations/\[3\]' 'entry/fits/\[3\]'
twin 'entry: `touched`, `stored` (four steps over a list)' 'entry/touched/touch.*touch.*touch.*touch' 'entry/stored/keep_read.*keep_read.*keep_read.*keep_read'
twin 'entry: `insert`, `in_mask` (a shard is 1..8)' 'entry/insert/8 < shard' 'entry/in_mask/8 < shard'
twin 'entry: `no_entry`, `new_entry` (an entry without reads)' 'entry/no_entry/client: 0.*reads: reads' 'entry/new_entry/client: client.*reads: reads'
twin 'entry: `heard_from`, `finished` (an entry with reads stored)' 'entry/heard_from/client: self.client' 'entry/finished/client: self.client'
twin 'entry `Part`, shard `Reads` (a list and how an item is added)' 'entry/with/self.items\[at\] = x' 'shard/note/reads.items\[at\] ='
twin 'entry `no_part`, shard `no_reads` (a list without items)' 'entry/no_part/count: 0' 'shard/no_reads/count: 0'
twin 'entry `shard_of`, shard `is_mine` (key mod m, plus 1)' 'entry/shard_of/key % m \+ 1' 'shard/is_mine/key % m \+ 1'
twin 'send: `least`, `ack_of`, `at_most_four` (the smaller of two)' "send/least/$two" "send/ack_of/$two" "send/at_most_four/$two"
twin 'send: `forward`, `backward`, `shard_append`; shard `exec_notif` (a frame of a head and a list)' 'send/forward/count:.*items: items' 'send/backward/count:.*items: items' 'send/shard_append/count:.*items: items' 'shard/exec_notif/count:.*items: items'
twin 'verdict: `next_of`, `floor_of` (what a table has for a client)' 'verdict/next_of/at < 16' 'verdict/floor_of/at < 16'
twin 'board: `raised`, `followed` (a table with one place changed)' 'board/raised/16 <= at' 'board/followed/16 <= at'
twin 'session: `refused`, `declined` (a refusal of two types)' 'session/refused/answer: answer' 'session/declined/answer: answer'
twin 'session: `invoke`, `retry` (refusal 11)' 'session/invoke/started.*68' 'session/retry/started.*68'
twin 'delivery: `board_at_start`, `shard_at_start`' 'delivery/board_at_start/.' 'delivery/shard_at_start/.'
twin 'delivery: `boards_at_start`, `shards_at_start` (eight calls)' 'delivery/boards_at_start/8\)' 'delivery/shards_at_start/8\)'
twin 'delivery: `deliver`, its arms for a board and for a shard group' 'delivery/deliver/board::step.*answer != 0.*shard::step.*answer != 0'
twin 'delivery: `line`, `log_line` (a line behind what is written)' 'delivery/line/written \+ lines::' 'delivery/log_line/written \+ lines::'
twin 'register: `session_start`, `board_start`, `shard_start`' 'register/session_start/\*s = next' 'register/board_start/\*b = next' 'register/shard_start/\*s = next'
twin 'register: `session_invoke`, `session_retry`, `session_response`' 'register/session_invoke/\*s = next' 'register/session_retry/\*s = next' 'register/session_response/\*s = next'
twin 'register: `board_step`, `shard_step`' 'register/board_step/\*b = next' 'register/shard_step/\*s = next'
twin 'lines: `header`, `d_line`, `l_line`, `cut_line`, `setup_line` (an area of less than 128 bytes)' 'lines/header/< 128' 'lines/d_line/< 128' 'lines/l_line/< 128' 'lines/cut_line/< 128' 'lines/setup_line/< 128'
twin 'records `named`: the arms for a board and for a shard group' 'records/named/Receiver::Nobody.*Receiver::Nobody.*Receiver::Nobody'
twin 'vectors: `write_in`, `write`; `part`, `front` (an array handed on as a slice)' 'vectors/write/write_in' 'vectors/front/part'
twin 'bench `read_head`, vectors `read_full` (read until the area is full)' 'bench/read_head/while' 'vectors/read_full/while'
twin 'frames `cat2`, session_situations `two`' 'frames/cat2/.' 'session_situations/two/.'
counted 'groups (by hand; each counted while all its functions are there in that shape)' <"$work/twins"
if [ -s "$work/gone" ] && [ "$verbose" = -v ]; then { printf '\n#### Point 2: groups that are gone\n\n'; sed 's/^gone: /- /' "$work/gone"; } >>"$work/said"; fi

point 3 "loops that count by hand, and code unrolled over items[0] to items[3]"
code '(^|[^a-z_])while ' | counted '`while` loops'
code '(^|[^a-z_])loop \{' | counted '`loop`s'
fns '$5 ~ /\[0\].*\[1\].*\[2\].*\[3\]/ || $5 ~ /\[3\].*\[2\].*\[1\].*\[0\]/' | counted 'functions that name `[0]` to `[3]`'
fns '$5 ~ /\[a, b, c, d(, e, f, g, h)?\]/ && $5 !~ /\[0\].*\[1\].*\[2\].*\[3\]/' | counted 'functions that end in `[a, b, c, d]` or in eight such'
code '(^|[ (])([a-z_.]+) = \2 \+ 1;' | counted '`i = i + 1`'

point 4 "equality, least and greatest, conversion and copying by hand"
code 'fn (least|larger|at_most_four|ack_of|cat2|cat4|two|same|same_operation)[(<]' | counted 'functions for what the library has: least, larger, at_most_four, ack_of, cat2, cat4, two, same, same_operation'
code 'as u16\) \+ 256|\+ 256 \* \(|as u32\) \+ 65536|\* 65536 \+|% 256\)? as u8|/ 256( % 256)?\)? as u8|% 65536\) as u16|/ 65536\) as u16' | counted 'numbers put together from bytes, or taken apart'
code '(<|-|\+) (48|55|58|65|71)([^0-9]|$)|[^0-9](48|55) \+|\] == 10 ' 'lines|vectors' | counted 'bytes of text by number (48 for `0`, ..)'
code '^ *#\[derive\(Clone, Copy\)\]$' | counted 'types that derive Clone and Copy alone' kept

point 5 "parameters that always travel together"
fns '$4 ~ /count: u8/ && $4 ~ /(items|reads|rs|xs): \[Item; 4\]/' | counted '`count: u8` with `items: [Item; 4]`'
fns '$4 ~ /client: u8/ && $4 ~ /[( ]number: u16/' | counted '`client: u8` with `number: u16`'
fns '$4 ~ /out: &mut \[u8\]/ && $4 ~ /[( ]at: usize/' | counted '`out: &mut [u8]` with `at: usize`'
fns '$4 ~ /[( ]n: u8, *m: u8, *own: u8/' | counted '`n: u8, m: u8, own: u8`'
fns '$4 ~ /len: LogNumber/ && $4 ~ /held: bool/ && $4 ~ /e: Entry/' | counted '`len: LogNumber, held: bool, e: Entry`'

point 6 "buffers with a length beside them, parallel arrays"
structs '$4 == "-" && $5 ~ /(count: u8|len: [A-Za-z0-9]+),/ && $5 ~ /: \[/ && $3 !~ /^(Items|Line)$/' | counted 'structs of a buffer and its length'
structs '$4 == "-" && $3 ~ /^(Items|Line)$/' | counted 'types of their own for a buffer and its length, with methods (frames `Items`, lines `Line`)' kept
structs '$4 == "C" && $5 ~ /(count: u8|len: [A-Za-z0-9]+),/ && $5 ~ /: \[/' | counted 'such structs that C lays out' kept
fns '$4 ~ /: (&|&mut )?\[[A-Za-z0-9]+; [0-9]+\]/ && $4 ~ /[( ](len|count|log_number): / && $4 !~ /count: u8/' | counted 'functions that take an array and a length or place beside it'

point 7 "a bool that chooses what to do, tables of functions"
fns '$4 ~ /[( ][a-z_]+: bool/ && $4 !~ /exe: bool|started: bool/' | counted 'functions with a `bool` parameter that chooses (there, wanted, fresh, goes, sends, held)'
code ': \[fn\(|\[fn\(|: fn\(' | counted 'tables or fields of functions'

point 8 "proof files of functions"
proofs=$(find crates -path '*/out' -prune -o -path '*/proofs/*' -name '*.antt' -print)
answers=$(grep -E '/Answers\.antt$' <<<"$proofs")
invariants=$(grep -E '/Invariants\.antt$' <<<"$proofs")
by_hand=$(grep -E '/Proof\.antt$' <<<"$proofs")
lemmas=$(grep -vE '/(Answers|Invariants|Proof|Lib)\.antt$' <<<"$proofs")
size() { if [ -z "$1" ]; then echo 0; else cat $1 | wc -l; fi; }
files() { grep -c . <<<"$1"; }
printf '| 8 | `Answers.antt` | %s files, %s lines, %s answers |\n' "$(files "$answers")" "$(size "$answers")" "$(cat /dev/null $answers | grep -cE '^pub [^ ]+ : goal\.')"
printf '| 8 | `Invariants.antt` | %s files, %s lines |\n' "$(files "$invariants")" "$(size "$invariants")"
printf '| 8 | `Proof.antt` | %s files, %s lines |\n' "$(files "$by_hand")" "$(size "$by_hand")"
printf '| 8 | files of lemmas | %s files, %s lines |\n' "$(files "$lemmas")" "$(size "$lemmas")"
now=
printf '\n### Besides: old spellings\n\n| point | places | number |\n|---|---|---|\n'
now=besides; echo 0 >"$work/total"
code '(^|[ {(])([a-z_0-9]+): \2( *[,}]|$)' | counted 'fields `name: name`'
code '(^|[ {(])[a-z_0-9]+: _[ ,}]' | counted 'fields `name: _` in a pattern'
code '\) [&|] [(!a-z]|[a-z0-9] [&|] \(|^ *[&|] [(!a-z]|[^&]& [a-z_]+\(' | grep -v '&&\|||' | counted 'lines that join tests by `&` or `|`'
fns '$4 ~ /[(, ](b|s|r|self|mut self|mut s|queues|boards|e|window): ?(Board|Shard|Session|Register|Window|Queue|Entry|\[Queue; 8\])|[(](mut )?self[,)]/' | counted 'functions that take a record by value'
close
printf '\nFunctions in crates/*/src: %s. Lines: %s.\n' "$(wc -l <"$work/fns")" "$(find crates -path '*/out' -prune -o -path '*/src/*' -name '*.rt' -print0 | xargs -0 cat | wc -l)"
cat "$work/said"
