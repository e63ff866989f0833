# Networks that three numbers make, told by `make` and by a session over their text; read by tests/run.
# shellcheck shell=sh disable=SC2154

# session_tells SEED ROUTERS LINKS: the summary, as a session tells it of the text of the network: the sum is that of
# the cuts of the first router and each other one.
session_tells() {
    {
        echo LOAD
        awk -v seed="$1" -v routers="$2" -v links="$3" -f examples/made_network.awk
        echo WEAKEST
        awk -v routers="$2" 'BEGIN { for (i = 1; i < routers; i++) print "CUT r0 r" i }'
    } | timeout -k 5 "$seconds" "$program" plan | awk '
        $2 == "LOADED" { print "made routers", $4, "links", $6 }
        $2 == "WEAKEST" { print "least", $3 }
        $2 == "CUT" { sum += $3 }
        END { printf "sum %.0f\n", sum }'
}

# try_made_network SEED ROUTERS LINKS: what a session tells of a network, `make` tells.
try_made_network() {
    session_tells "$@" >"$room/wanted"
    timeout -k 5 "$seconds" "$program" make "--seed=$1" "--routers=$2" "--links=$3" \
        <"$room/nothing" >"$room/stdout" 2>"$room/stderr"
    status=$?
    judge "the network of seed $1 with $2 routers and $3 links, made and loaded" "$status" 0 "$room/wanted"
}

try_made_network 7 3 3
try_made_network 0 2 1
try_made_network 11 300 1500
try_made_network 4711 90 700
try_made_network 65535 1024 8192
for seed in 1 2 3 4 5 6 7 8; do
    try_made_network "$seed" $((5 * seed)) $((20 * seed))
done
