#!/bin/sh
# The example shop, as docs/SERVICE.md has it: a server, a hub, the service, and what was saved.
#
#     shop.sh SHOP BIN FOLDER PORT      BIN has hindsight-hub and hindsight-traces; FOLDER is empty
shop=$1 bin=$2 folder=$3 url=nats://127.0.0.1:$4
printf 'nodes 4\ntriggerid 1\n' >"$folder/settings"
mkdir "$folder/store"
nats-server -a 127.0.0.1 -p "$4" -js -sd "$folder/js" >/dev/null 2>&1 &
server=$!
"$bin/hindsight-hub" "$folder/settings" "$folder/store" --url "$url" &
hub=$!
trap 'kill $hub $server; wait' EXIT
"$shop" front "$url" || exit 1
for _ in 1 2 3 4 5 6 7 8 9 10; do
    sleep 1
    found=$("$bin/hindsight-traces" "$folder/store" find | grep -c front)
    [ "$found" -lt 10 ] || break
done
[ "$found" -eq 10 ] || { echo "$found traces were found, not 10"; "$bin/hindsight-traces" "$folder/store" find; exit 1; }
trace=$("$bin/hindsight-traces" "$folder/store" find | grep -o '[0-9a-f]\{32\}' | head -1)
"$bin/hindsight-traces" "$folder/store" show "$trace" | grep -q 'GET /cart' || { echo "the trace has no span"; exit 1; }
