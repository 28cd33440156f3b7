# What the transcripts call besides the programs. Each TEXT goes into t.x, with printf's escapes in it, as \n.

# ask TEXT LINE..: what rpcedit answers to these lines.
ask() {
    printf %b "$1" >t.x
    printf '%s\n' "${@:2}" | rpcedit t.x
}

faults() { ask "$1" faults; }

tokens() { ask "$1" tokens; }

definitions() { ask "$1" definitions; }

# header TEXT, routines TEXT, stubs TEXT, table TEXT: what rpcgen writes.
header() { generated -h "$1"; }

routines() { generated -c "$1"; }

stubs() { generated -l "$1"; }

table() { generated -t "$1"; }

generated() {
    put "$2"
    rpcgen "$1" t.x
}

put() { printf %b "$1" >t.x; }

# hex TEXT: its bytes as digits, for a line that edits.
hex() { printf %b "$1" | od -An -v -tx1 | tr -d ' \n'; }

# known TEXT: the same into k.x, a file of definitions that are known.
known() { printf %b "$1" >k.x; }

# short COMMAND..: where no file takes more than 1,024 bytes.
short() (
    trap '' XFSZ
    ulimit -f 1
    "$@"
)

# full_at KIB COMMAND..: where no file takes more than so many KiB.
full_at() (
    trap '' XFSZ
    ulimit -f "$1"
    "${@:2}"
)

# unread COMMAND..: with a standard output whose reader has ended.
unread() (
    exec 3> >(:)
    wait $!
    "$@" >&3
)

# bound COMMAND..: where permission bits count, for root too.
bound() {
    if [ "$(id -u)" = 0 ]; then
        setpriv --bounding-set=-dac_override,-dac_read_search "$@"
    else
        "$@"
    fi
}

# state_of FILE: its inode, permissions, times and bytes.
state_of() {
    stat -c '%i %a %y %z' "$1"
    cksum <"$1"
}

# within KIB COMMAND..: where there is so much memory, the program itself included.
within() (
    ulimit -v "$1"
    "${@:2}"
)

# keyed KEY COMMAND..: where the system's random bytes are all this one, or there are none if it is empty.
keyed() (
    [ -f keys.so ] || cc -shared -fPIC -O1 -o keys.so "$top/sweeps/keys.c"
    KEY=$1 LD_PRELOAD=$PWD/keys.so exec "${@:2}"
)

# cpu SECONDS COMMAND..: where there is so much time of a processor.
cpu() (
    ulimit -t "$1"
    "${@:2}"
)

# adders COUNT: a program of so many procedures, each of two arguments.
adders() {
    local k
    printf 'program P { version V {\\n'
    for ((k = 1; k <= $1; k++)); do printf 'int ADD%d(int, int) = %d;\\n' "$k" "$k"; done
    printf '} = 1; } = 1;\\n'
}

# tower HEIGHT: so many structs, each of which holds the one before.
tower() {
    local k
    printf 'struct s1 { int a; };\\n'
    for ((k = 2; k <= $1; k++)); do printf 'struct s%d { s%d a; };\\n' "$k" $((k - 1)); done
}

# marked [MOST] <ROWS: each line as a text, with a code, of those up to MOST, in front of each word at which rpcedit tells a fault;
# lines that begin with # as they are.
marked() {
    local line text place code most=${1:-99}
    while IFS= read -r line; do
        if [[ $line == '#'* ]]; then
            printf '%s\n' "$line"
            continue
        fi
        text=$(sed 's/«[0-9]*»//g' <<<"$line")
        printf %s "$text" >t.x
        # From the last to the first, so that the columns before a mark stay.
        while read -r place code _; do
            if [ "$code" -gt "$most" ]; then continue; fi
            place=$((${place#1:} - 1))
            text=${text:0:place}«$code»${text:place}
        done < <(rpcedit t.x <<<faults | tail -n +2 | tac)
        printf '%s\n' "$text"
    done
}

# links TYPE COUNT [LAST]: the line that shows a type of so many words 1 and a last word, which is 0 where none is named.
links() {
    printf 'dump %s ' "$1"
    yes 00000001 | head -n "$2" | tr -d '\n'
    echo "${3:-00000000}"
}

# bytes HEX..: the bytes of these digits, among which there may be blanks.
bytes() {
    local digits
    digits=$(printf %s "$@" | tr -d ' \n')
    printf %b "$(sed 's/../\\x&/g' <<<"$digits")"
}

# record HEX: these bytes as a record of one fragment.
record() {
    local digits=${1//[[:space:]]/}
    bytes "$(printf %08x $((0x80000000 + ${#digits} / 2)))$digits"
}

# fragments SIZE HEX: these bytes as a record of fragments of so many bytes each, the last of which may be shorter.
fragments() {
    local digits=${2//[[:space:]]/} size=$((2 * $1))
    while [ ${#digits} -gt "$size" ]; do
        bytes "$(printf %08x "$1")${digits:0:size}"
        digits=${digits:size}
    done
    record "$digits"
}

# call XID PROCEDURE [HEX]: a call of NFS version 2 without credentials, with these arguments.
call() { printf '%08x 00000000 00000002 000186a3 00000002 %08x 00000000 00000000 00000000 00000000 %s' "$1" "$2" "${3:-}"; }

# success XID [HEX]: an accepted reply with these results.
success() { printf '%08x 00000001 00000000 00000000 00000000 00000000 %s' "$1" "${2:-}"; }

# handle BYTE: a file handle of NFS version 2, of this byte 32 times.
handle() { printf "$1%.0s" {1..32}; }

# stream HEX..: what rpcdump shows of a stream of these bytes, which is then in s.
stream() {
    bytes "$@" >s
    rpcdump s
}

# records HEX..: of a stream of these records, which is then in s.
records() {
    local one
    for one in "$@"; do record "$one"; done >s
    rpcdump s
}

# message HEX: of one bare message.
message() {
    bytes "$1" >m
    rpcdump -b m
}

# value TYPE HEX: of one bare value.
value() {
    bytes "$2" >v
    rpcdump -t "$1" v
}

# given TEXT HEX..: of a stream of these records, by the schema of the text.
given() {
    local one
    printf %b "$1" >t.x
    for one in "${@:2}"; do record "$one"; done >s
    rpcdump -x t.x s
}

# counts TEXT LINE..: of each edit that these lines ask for, how many tokens were lexed, and how many items parsed and checked.
counts() { work "$@" | sed 's/ moved .*//'; }

# work TEXT LINE..: the same, with how many entries move.
work() {
    printf %b "$1" >t.x
    printf '%s\n' "${@:2}" | edit_counts t.x
}

# framed TEXT..: each text as a message of the Language Server Protocol.
framed() {
    local LC_ALL=C text
    for text in "$@"; do printf 'Content-Length: %d\r\n\r\n%s' "${#text}" "$text"; done
}

# bodies: the bodies of the messages that come, one a line.
bodies() { tr -d '\r' | sed -e 's/Content-Length: [0-9]*$//' -e '/^$/d' | sed '$a\'; }

# serve TEXT..: what rpcls says to these messages, one a line; with its status where that is not 0.
serve() {
    framed "$@" | {
        if [ -n "${come_at_once-}" ]; then
            cat >messages
            exec <messages
        fi
        rpcls ${server_options-}
    } | bodies
    return "${PIPESTATUS[1]}"
}

# at_once COMMAND..: where all messages have come before the first is read.
at_once() {
    local come_at_once=1
    "$@"
}

# under OPTIONS COMMAND..: of an rpcls with these options.
under() {
    local server_options=$1
    "${@:2}"
}

# wishing OPTIONS COMMAND..: of a client whose initializationOptions are these.
wishing() {
    local client_options=$1
    "${@:2}"
}

# conversation TEXT..: the same, of a client that begins as the protocol wants it, with UTF-8, and ends so; without what is said to
# that.
conversation() { spoken '["utf-8"]' "$@"; }

# conversation16 TEXT..: of one that offers no UTF-8.
conversation16() { spoken '[]' "$@"; }

spoken() {
    local more=
    if [ -n "${client_options-}" ]; then more=',"initializationOptions":'$client_options; fi
    serve '{"jsonrpc":"2.0","id":"first","method":"initialize","params":{"capabilities":{"general":{"positionEncodings":'"$1"'}}'"$more"'}}' \
        '{"jsonrpc":"2.0","method":"initialized","params":{}}' "${@:2}" \
        '{"jsonrpc":"2.0","id":"last","method":"shutdown"}' '{"jsonrpc":"2.0","method":"exit"}' |
        grep -v '"id":"\(first\|last\)"'
}

# related TEXT: what is published of t.x to a client that shows other places with a fault.
related() {
    serve '{"jsonrpc":"2.0","id":1,"method":"initialize","params":{"capabilities":{"textDocument":{"publishDiagnostics":{"relatedInformation":true}}}}}' \
        '{"jsonrpc":"2.0","method":"initialized","params":{}}' "$(opens "$1")" \
        '{"jsonrpc":"2.0","id":2,"method":"shutdown"}' '{"jsonrpc":"2.0","method":"exit"}' | grep publishDiagnostics
}

# opens TEXT, changes VERSION CHANGE.., closes: notifications of the document t.x; each CHANGE is JSON.
opens() {
    printf '{"jsonrpc":"2.0","method":"textDocument/didOpen","params":{"textDocument":{"uri":"file:///t.x","languageId":"x","version":1,"text":"%s"}}}' "$1"
}

changes() {
    local IFS=,
    printf '{"jsonrpc":"2.0","method":"textDocument/didChange","params":{"textDocument":{"uri":"file:///t.x","version":%s},"contentChanges":[%s]}}' "$1" "${*:2}"
}

closes() {
    printf '{"jsonrpc":"2.0","method":"textDocument/didClose","params":{"textDocument":{"uri":"file:///t.x"}}}'
}

# in_range LINE CHARACTER LINE CHARACTER TEXT: a change of a range.
in_range() {
    printf '{"range":{"start":{"line":%s,"character":%s},"end":{"line":%s,"character":%s}},"text":"%s"}' "$@"
}

# diagnosed: what is published, as it comes: the version, and under it each fault, note, hint or warning with its place.
diagnosed() {
    grep publishDiagnostics | python3 -c '
import json, sys

def place(position):
    return "%d:%d" % (position["line"], position["character"])

for line in sys.stdin:
    params = json.loads(line)["params"]
    print("version", params["version"])
    for told in params["diagnostics"]:
        kind = {1: "error", 2: "warning", 3: "note", 4: "hint"}[told["severity"]]
        print(" ", kind, place(told["range"]["start"]) + "-" + place(told["range"]["end"]), told["message"])'
}

# asks ID METHOD LINE CHARACTER [MORE]: a question about the document t.x; MORE stands behind its other parameters.
asks() {
    printf '{"jsonrpc":"2.0","id":%s,"method":"textDocument/%s","params":{"textDocument":{"uri":"file:///t.x"},"position":{"line":%s,"character":%s}%s}}' "$@"
}

# asks_of ID METHOD: a question about the whole document t.x.
asks_of() {
    printf '{"jsonrpc":"2.0","id":%s,"method":"textDocument/%s","params":{"textDocument":{"uri":"file:///t.x"}}}' "$@"
}

# cancels ID: the notification that cancels a request.
cancels() { printf '{"jsonrpc":"2.0","method":"$/cancelRequest","params":{"id":%s}}' "$1"; }

# of_u: a message about t.x, as one about u.x.
of_u() { sed 's/t\.x/u.x/'; }

# refers ID LINE CHARACTER: a question for where a name is used and declared.
refers() { asks "$1" references "$2" "$3" ',"context":{"includeDeclaration":true}'; }

# renames ID LINE CHARACTER NAME: a question for the edits that give a name another one.
renames() { asks "$1" rename "$2" "$3" ',"newName":"'"$4"'"'; }

# answers TEXT..: what is said in a conversation to questions, one a line, with places as LINE:CHARACTER-LINE:CHARACTER.
answers() {
    conversation "$@" | grep '"id":' | places
}

places() {
    sed -E -e 's/\{"end":\{"character":([0-9]+),"line":([0-9]+)\},"start":\{"character":([0-9]+),"line":([0-9]+)\}\}/\4:\3-\2:\1/g' \
        -e 's/"range"://g'
}

# outline TEXT: the symbols of a document, each behind the one around it and further in: its name and kind, its range and that of its
# name.
outline() {
    conversation "$(opens "$1")" "$(asks_of 1 documentSymbol)" | grep '"id":' | python3 -c '
import json, sys

def place(position):
    return "%d:%d" % (position["line"], position["character"])

def span(range):
    return place(range["start"]) + "-" + place(range["end"])

def show(symbols, front):
    for symbol in symbols:
        print(front + symbol["name"], symbol["kind"], span(symbol["range"]), span(symbol["selectionRange"]))
        show(symbol["children"], front + "  ")

show(json.load(sys.stdin)["result"], "")'
}

# token_kinds ENCODINGS TEXT: the semantic tokens of a document as a client with these encodings has them: LINE:CHARACTER+LENGTH and
# the name that the legend has for the type.
token_kinds() {
    serve '{"id":1,"method":"initialize","params":{"capabilities":{"general":{"positionEncodings":'"$1"'}}}}' \
        "$(opens "$2")" "$(asks_of 2 semanticTokens/full)" | grep '"id":' | python3 -c '
import json, sys

legend, tokens = [json.loads(line)["result"] for line in sys.stdin]
types = legend["capabilities"]["semanticTokensProvider"]["legend"]["tokenTypes"]
data = tokens["data"]
line = character = 0
for at in range(0, len(data), 5):
    lines, characters, length, type, modifiers = data[at : at + 5]
    line += lines
    character = characters if lines else character + characters
    print("%d:%d+%d" % (line, character, length), types[type])'
}

# wants ID WHICH: a question for a text of the document t.x.
wants() {
    printf '{"jsonrpc":"2.0","id":%s,"method":"rpcgen/text","params":{"textDocument":{"uri":"file:///t.x"},"which":"%s"}}' "$@"
}

# told: the text that is the result of the line that comes.
told() {
    local text
    IFS= read -r text
    printf %b "$(sed -E -e 's/.*"result":"(.*)"\}$/\1/' -e 's/\\"/"/g' <<<"$text")."
}

# words TEXT: the words that can stand at the end of a text of one line, each with its kind.
words() {
    answers "$(opens "$1")" "$(asks 1 completion 0 ${#1})" | grep -o '"kind":[0-9]*,"label":"[^"]*"' |
        sed 's/"kind":\([0-9]*\),"label":"\([^"]*\)"/\2:\1/' | paste -sd ' '
}

# refusals TEXT..: the codes and ids of the answers that refuse these messages to a fresh server, with how many there are of each.
refusals() {
    serve "$@" | sed -E 's/.*"code":(-?[0-9]+),.*"id":(.*),"jsonrpc":.*/\1 \2/' | uniq -c | sed 's/^ *//'
}

# notes: of the messages that come, the last parts of their methods, on one line.
notes() { grep -oE '"method":"[^"]*"' | sed 's|.*/||; s|"||' | paste -sd ' '; }

# flood KIND ..: names or numbers that collide in a table that hashes by the kit's default (flood.c), one a line.
flood() {
    if ! [ -x flood ]; then cc -O2 -o flood "$top/tests/flood.c"; fi
    ./flood "$@"
}

# calls_of: a call of procedure 0 of NFS version 2 for each xid that comes.
calls_of() {
    python3 -c '
import struct, sys

for line in sys.stdin:
    sys.stdout.buffer.write(struct.pack(">11I", 2 ** 31 + 40, int(line), 0, 2, 100003, 2, 0, 0, 0, 0, 0))'
}

# repeat COUNT TEXT: the text so often.
repeat() { yes "$2" | head -n "$1" | tr -d '\n'; }
