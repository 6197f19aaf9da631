#!/bin/sh
# Runs the lines of README.md that begin with curl, on a server of EDGE: each prints what stands behind its #. usage: lines.sh EDGE GUESTS
set -u
here=$(cd "$(dirname "$0")/.." && pwd) room=$(mktemp -d) failed=0 count=0
port=$(cd "$here" && python3 -c 'import ports; print(ports.free_port())')
cp "$2"/*.wasm "$here/dashboard.html" "$room"
for guest in "$room"/*.wasm; do echo 'deadline 60000' > "${guest%.wasm}.conf"; done # a busy machine is no failure
echo 'type text/plain' >> "$room/hello.conf"
"$1" -a 127.0.0.1 -a "unix:$room/edge.sock" -p "$port" -w 3 "$room" > "$room/access" & pid=$!
trap 'kill $pid; wait $pid; rm -rf "$room"' EXIT
curl -s --interface 127.0.0.2 --retry 50 --retry-connrefused --retry-delay 1 -o "$room/got" "http://127.0.0.1:$port/-/metrics"
grep '^    curl ' "$here/README.md" | sed "s/8080/$port/; s|/run/edge.sock|$room/edge.sock|" > "$room/lines"
while IFS= read -r line; do
    wanted=${line##*# } count=$((count + 1))
    (cd "$room" && sh -c "${line%%# *}") > "$room/got" 2>&1
    grep -qF -e "$wanted" "$room/got" || { echo "lines: $line: $(head -c 300 "$room/got")" >&2; failed=1; }
done < "$room/lines"
[ "$count" -gt 5 ] || failed=1
[ $failed != 0 ] || echo "lines: $count lines of README.md print what they say"
exit $failed
