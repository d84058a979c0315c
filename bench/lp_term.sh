#!/bin/sh
# Nodes a second of `node`, `lift` and `put`, on one and two million distinct nodes, by processor time, and the ratio
# of the times, which is to be at most 2.5. Run `rt run` in crates/bench first, which builds the program.
# On a busy machine with four processors it gave: node 2,940,000 and 2,560,000, lift 1,040,000 and 1,170,000,
# put 1,490,000 and 1,250,000; ratios 2.29, 1.78 and 2.39.
cd "$(dirname "$0")/../crates/bench" || exit 1
# The least of five runs.
seconds() {
    for _ in 1 2 3 4 5; do
        { /usr/bin/time -f '%U %S' ./out/bench lp_term "$1" "$2" >/dev/null; } 2>&1 | awk '{ print $1 + $2 }'
    done | sort -n | head -1
}
node_one=$(seconds node 1000000)
node_two=$(seconds node 2000000)
for call in node lift put; do
    one=$(seconds $call 1000000)
    two=$(seconds $call 2000000)
    if [ $call != node ]; then
        one=$(echo "$one $node_one" | awk '{ print $1 - $2 }')
        two=$(echo "$two $node_two" | awk '{ print $1 - $2 }')
    fi
    echo "$call $one $two" | awk '{ printf "%s: %d and %d nodes a second, ratio %.2f\n", $1, 1e6 / $2, 2e6 / $3, $3 / $2 }'
done
