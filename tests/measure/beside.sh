#!/bin/sh
# What calls through a PKCS #11 library cost, side by side: the daemon, SoftHSM behind p11-kit's server, and SoftHSM in the application's
# own process. tests/measure/beside.c measures one of them; this starts all three on new files in a temporary folder, and runs it by turns.
#
#   tests/measure/beside.sh [TURNS [OPTION..]]     5 turns if left out; the options are those of tests/measure/beside.c
#
# It prints the medians of all turns as a table: what is called, by how many processes, calls a second of each, and how many times as many
# as SoftHSM behind the server the daemon makes. A row that a library refuses has its return value. The columns have tabs between them.
# Then it says which rows p11-kit refuses: its server forwards parameters of mechanisms from 0.26 on.
#
# It wants out/tokend-pkcs11.so (bin/build module), the program that TOKEND names or that an earlier run left, and Debian's softhsm2,
# p11-kit and p11-kit-modules. Nothing else should run on the machine meanwhile.
set -e
cd "$(dirname "$0")/../.."
turns=${1-5}
[ $# = 0 ] || shift
library=$PWD/out/tokend-pkcs11.so
client=$(find /usr/lib -name p11-kit-client.so | head -n 1)
softhsm=/usr/lib/softhsm/libsofthsm2.so
program=${TOKEND-}
for made in crates/tokend/out/tokend out/tokend; do
    if [ -z "$program" ] && [ -x "$made" ]; then
        program=$made
    fi
done
for file in "$program" "$library" "$client" "$softhsm"; do
    if [ ! -r "$file" ]; then
        echo "beside.sh: something is missing: TOKEND, out/tokend-pkcs11.so, p11-kit-client.so or libsofthsm2.so" >&2
        exit 2
    fi
done

folder=$(mktemp -d)
daemon='' server=''
stop() {
    for process in $daemon $server; do
        kill "$process" 2>"$folder/null" || true
        wait "$process" 2>"$folder/null" || true
    done
    daemon='' server=''
}
trap 'stop; rm -rf "$folder"' EXIT
trap 'exit 1' INT TERM
cc -O2 -pthread tests/measure/beside.c -o "$folder/beside"
export SOFTHSM2_CONF="$folder/softhsm2.conf"
echo "directories.tokendir = $folder/tokens" >"$SOFTHSM2_CONF"
echo 'log.level = ERROR' >>"$SOFTHSM2_CONF"

# Waits until a socket is there.
await() {
    tries=0
    until [ -S "$1" ]; do
        tries=$((tries + 1))
        if [ $tries = 100 ]; then
            echo "beside.sh: nothing listens on $1" >&2
            exit 1
        fi
        sleep 0.1
    done
}

# An empty token of SoftHSM.
new_token() {
    rm -rf "$folder/tokens"
    mkdir "$folder/tokens"
    softhsm2-util --init-token --free --label beside --so-pin 12345678 --pin 1234 >"$folder/null"
}

# Adds the rows of one side to the others, each with the side's number before it.
measure() {
    side=$1
    shift
    "$folder/beside" "$@" | awk -v side="$side" '{ print side "\t" $0 }' >>"$folder/rows"
}

turn=0
while [ $turn -lt "$turns" ]; do
    turn=$((turn + 1))
    echo "turn $turn of $turns" >&2

    rm -f "$folder"/token.*
    "$program" serve --store "$folder/token.db" --socket "$folder/token.sock" >"$folder/daemon" 2>&1 &
    daemon=$!
    await "$folder/token.sock"
    TOKEND_SOCKET="$folder/token.sock" measure 1 --module "$library" "$@"
    stop

    new_token
    p11-kit server --foreground --name "$folder/peer.sock" --provider "$softhsm" 'pkcs11:token=beside' >"$folder/server" 2>&1 &
    server=$!
    await "$folder/peer.sock"
    P11_KIT_SERVER_ADDRESS="unix:path=$folder/peer.sock" measure 2 --module "$client" "$@"
    stop
    rm -f "$folder/peer.sock"

    new_token
    measure 3 --module "$softhsm" "$@"
done

# The medians. Rows stand in the order in which they came first.
awk -F '\t' '
    { row = $2 "\t" $3 }
    !(row in place) { place[row] = ++rows; name[rows] = row }
    $4 ~ /^0x/ { refused[row, $1] = $4; next }
    { values[row, $1, ++count[row, $1]] = $5 }
    function median(row, side, i, j, n, list, value) {
        n = count[row, side]
        for (i = 1; i <= n; i++) {
            value = values[row, side, i]
            for (j = i - 1; j > 0 && list[j] > value; j--) list[j + 1] = list[j]
            list[j + 1] = value
        }
        return n ? list[int(n / 2) + 1] : (row, side) in refused ? refused[row, side] : "-"
    }
    END {
        print "what\tprocesses\ttokend a second\tp11-kit and SoftHSM\ttokend beside it\tSoftHSM in the process"
        for (i = 1; i <= rows; i++) {
            ours = median(name[i], 1)
            peer = median(name[i], 2)
            both = ours ~ /^[0-9.]+$/ && peer ~ /^[0-9.]+$/ && peer > 0
            print name[i] "\t" ours "\t" peer "\t" (both ? sprintf("%.2f", ours / peer) : "-") "\t" median(name[i], 3)
            if (peer ~ /^0x/) missing[split(name[i], part, "\t") ? part[1] : ""]
        }
        for (row in missing) print "p11-kit " version " refuses: " row
    }' version="$(dpkg-query -W -f '${Version}' p11-kit)" "$folder/rows"
