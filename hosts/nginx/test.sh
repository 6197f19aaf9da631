#!/bin/bash
# shellcheck disable=SC2034,SC2154
# nginx with the module on a port of its own, as it is packaged: test.sh [random FOLDER | bench]
set -u
cd "$(dirname "$0")" || exit 1
name=nginx
. ../lib.sh
./build.sh || exit 1
here=$PWD port=$(free_port) port2=$(free_port)
mkdir "$room/logs" "$room/www"
cp "$guest" "$room"
chmod 755 "$room"
echo '[<!--# include virtual="/slug" -->|<!--# include virtual="/long" -->|<!--# include virtual="/q" -->]' > "$room/www/page.shtml"
conf() { cat > "$room/nginx.conf" <<C
load_module $here/out/ngx_http_wasmloop_module.so;
worker_processes 1;
daemon off;
pid $room/pid;
error_log $room/logs/error.log;
events { worker_connections 1024; }
http {
    log_format w '\$uri \$status \$wasmloop_outcome \$wasmloop_fuel \$wasmloop_value';
    access_log $room/logs/access.log w;
    client_body_temp_path $room/body; proxy_temp_path $room/p; fastcgi_temp_path $room/f; uwsgi_temp_path $room/u; scgi_temp_path $room/s;
    client_max_body_size 1m;
    wasmloop_type text/plain;
    root $room/www;
    server {
        listen 127.0.0.1:$port;
        listen 127.0.0.1:$port2 http2;
        location /slug { wasmloop ${1:-rules.wasm} 0; ${2:-} }
        location /q { wasmloop rules.wasm 0; wasmloop_input "\$request_method \$arg_name"; }
        location /if { wasmloop rules.wasm 0; if (\$arg_a) { add_header X-If yes; } limit_except GET POST { deny all; } }
        location /spin { wasmloop rules.wasm 1; wasmloop_fuel 20000000000; wasmloop_time 1500ms; error_page 504 @late; }
        location @late { return 504 "too late"; }
        location /spent { wasmloop rules.wasm 1; wasmloop_fuel 1000000; }
        location /trap { wasmloop rules.wasm 2; }
        location /long { wasmloop rules.wasm 3; wasmloop_fuel 100000000; wasmloop_time 20s; }
        location /grow { wasmloop rules.wasm 4; wasmloop_fuel 20000000000; wasmloop_time 300ms; }
        location /copies { wasmloop rules.wasm 5; wasmloop_fuel 20000000000; wasmloop_time 300ms; }
        location /deep { wasmloop rules.wasm 6; }
        location /few { wasmloop rules.wasm 1; wasmloop_fuel 20000000000; wasmloop_time 1500ms; wasmloop_jobs 2; }
        location /status { wasmloop_status; }
        location /static { return 200 "hello"; }
        #RANDOM
        location /page { ssi on; default_type text/html; }
    }
}
C
}
conf
nginx -c "$room/nginx.conf" -p "$room" -t 2> "$room/t" || { cat "$room/t"; exit 1; }
bench=()
if [ "${1:-}" = bench ]; then       # a processor of its own; Lua and njs beside it (libnginx-mod-http-lua, -js)
    bench=(taskset -c "$last")
    cat > "$room/rules.js" <<'J'
function long(r) { var n = 0; for (var i = 0; i < 2000000; i++) { n = (n * 31 + i) | 0; } r.return(200, String(n)); }
function slug(r) { r.return(200, r.requestText.toLowerCase().replace(/[^a-z0-9]+/g, '-').replace(/^-|-$/g, '')); }
export default { long, slug };
J
    cat > "$room/slug.lua" <<'L'
ngx.req.read_body()
ngx.print((ngx.req.get_body_data():lower():gsub('[^a-z0-9]+', '-'):gsub('^%-', ''):gsub('%-$', '')))
L
    sed -i "1i load_module modules/ndk_http_module.so;\nload_module modules/ngx_http_lua_module.so;\nload_module modules/ngx_http_js_module.so;" "$room/nginx.conf"
    sed -i "s|#RANDOM|location /lua/long { content_by_lua_block { local n = 0 for i = 0, 1999999 do n = bit.tobit(n * 31 + i) end ngx.print(n) } } location /js/long { js_content rules.long; } location /lua/slug { content_by_lua_file $room/slug.lua; } location /js/slug { js_content rules.slug; }|
        s|^http {|http { js_import rules from $room/rules.js; lua_package_path '/usr/share/lua/5.1/?.lua;;';|; s|load_module modules|load_module /usr/lib/nginx/modules|" "$room/nginx.conf"
fi
"${bench[@]}" nginx -c "$room/nginx.conf" -p "$room" 2> "$room/stderr" &
pid=$!
trap 'kill $pid 2> /dev/null; wait $pid 2> /dev/null; rm -rf "$room"' EXIT
for i in $(seq 50); do curl -s -o /dev/null "http://127.0.0.1:$port/static" && break; sleep 0.1; done
get() { curl -s -m 20 -w '|%{http_code}' "$@" | tr '\n' '|'; }
code() { curl -s -m 20 -o /dev/null -w '%{http_code}' "$@"; }
letters() { head -c "$1" /dev/zero | tr '\0' A; }
url=http://127.0.0.1:$port
# the worker's processor time of a request, the least of five times 8,000 (ab, of apache2-utils)
short() {
    local worker best=999999999999 before after n=8000
    worker=$(pgrep -P $pid | head -1)
    for _ in 1 2 3 4 5; do
        read -r before _ < "/proc/$worker/schedstat"
        ab -q -k -n $n -c 4 -p "$room/text" "$url$1" > "$room/ab" 2>&1
        read -r after _ < "/proc/$worker/schedstat"
        [ $((after - before)) -ge $best ] || best=$((after - before))
    done
    grep -q "^Non-2xx\|^Failed requests: *[1-9]" "$room/ab" && { echo "short requests of $1 failed"; cat "$room/ab"; }
    echo "short $1: $(python3 -c "print(f'{$best / 1e3 / $n:.1f}')") us of the worker"
}
if [ "${1:-}" = bench ]; then
    for _ in 1 2 3; do for path in - /long /lua/long /js/long; do
        taskset -c "$last" timeout 10 python3 "$top/hosts/paced.py" http 127.0.0.1:"$port" $path
        sleep 0.5
    done; done
    echo 'Hello, World 42' > "$room/text"
    for path in /static /slug /lua/slug /js/slug; do short $path; done
    exit
fi
if [ "${1:-}" = random ]; then      # modules of a folder, of which none may crash a worker
    python3 "$top/hosts/random_modules.py" nginx "$room/nginx.conf" $pid "$port" "$(readlink -f "$2")"
    want $? 0 "all are answered"
    want "$(get -d 'After All' $url/slug)" "after-all|200" "a request behind them"
    want "$(grep -cE 'signal|alert|emerg' "$room/logs/error.log")" 0 "no worker has crashed"
    end
    exit
fi
want "$(get -d 'Hello, World 42' $url/slug)$(get $url/slug)" "hello-world-42|200|200" "a body, and none"
want "$(curl -s -I $url/slug | head -1 | tr -d '\r')" "HTTP/1.1 200 OK" "HEAD"
want "$(letters 65536 | get --data-binary @- $url/slug | wc -c) $(letters 65536 | get -H 'Transfer-Encoding: chunked' --data-binary @- $url/slug | wc -c) $(letters 20000 | get -H 'Transfer-Encoding: chunked' --data-binary @- $url/slug | wc -c)" "65540 65540 20004" "65,536 bytes, in a temporary file and in chunks"
want "$(letters 65537 | code --data-binary @- $url/slug) $(letters 65537 | code -H 'Transfer-Encoding: chunked' --data-binary @- $url/slug)" "413 413" "65,537 bytes"
want "$(get "$url/q?name=A%20B")" "get-a-20b|200" "wasmloop_input"
want "$(get -d 'If So' "$url/if?a=1") $(code -X PUT -d x $url/if)" "if-so|200 403" "an if and a limit_except within the location"
want "$(get $url/page.shtml)" "[||get]||200" "subrequests"
want "$(code $url/trap) $(code $url/spent) $(code $url/deep) $(code $url/grow) $(code $url/copies)" "500 504 500 504 504" "hostile guests"
for each in 'an access outside the memory, after 22 units, in function 13 (uv_work)' 'out of fuel, after 1,000,000 units' 'call-depth limit exceeded' 'deadline, after'; do
    want "$(grep -c "$each" "$room/logs/error.log" | sed 's/^[1-9][0-9]*$/yes/')" yes "the error log says: $each"
done
want "$(get $url/spin)" "too late|504" "a deadline, and error_page"
like "$(grep -E '^(/trap|/copies)' "$room/logs/access.log" | tail -2 | tr '\n' '|')" "/trap 500 trap * 4|/copies 504 deadline [0-9]* 0|" "the variables"
# HTTP/2
if curl -V | grep -q HTTP2; then
    two=http://127.0.0.1:$port2
    want "$(get --http2-prior-knowledge -d 'Over Two' $two/slug) $(code --http2-prior-knowledge $two/trap)" "over-two|200 500" "HTTP/2"
    curl -s -m 0.1 -o /dev/null --http2-prior-knowledge $two/spin
    sleep 0.4
    want "$(tail -1 "$room/logs/access.log" | cut -d ' ' -f 1,2)" "/spin 499" "a client of HTTP/2 that leaves"
else echo "left out: HTTP/2: curl lacks it"; fi
# counters
ended() { curl -s $url/status | sed -n "s/^wasmloop_[a-z_]*{outcome=\"$1\"} //p; s/^wasmloop_$1 //p"; }
for each in "trap trap" "depth deep" "spent spent" "deadline copies" "done slug"; do
    before=$(ended "${each% *}")
    code "$url/${each#* }" > /dev/null
    want "$(ended "${each% *}")" $((before + 1)) "the counter of ${each% *}"
done
want "$(code $url/status) $(code -d x $url/status) $(curl -s -D - -o /dev/null $url/status | grep -c '^Content-Type: text/plain; version=0.0.4')" "200 405 1" "the status page"
# pages beside requests that take long
for i in 1 2 3 4; do curl -s -o /dev/null $url/spin & rest[i]=$!; done
sleep 0.1
within 3000 "twenty pages beside four endless requests" curl -s "$url/static?[1-20]"
want "$said" "$(printf 'hello%.0s' $(seq 20))" "the pages"
wait "${rest[@]}"
# at most so many at a time
for i in 1 2; do curl -s -o /dev/null $url/few & rest[i]=$!; done
sleep 0.2
want "$(ended running) $(code $url/few) $(code -d x $url/slug)" "2 503 200" "wasmloop_jobs"
wait "${rest[@]}"
want "$(ended running) $(ended busy)" "0 1" "the counters of those that ran, and of the one that did not"
left=$(ended left)
# a client that leaves ends its request
within 1000 "a client that leaves" curl -s -m 0.1 $url/spin
sleep 0.4
want "$(tail -1 "$room/logs/access.log" | cut -d ' ' -f 1,2) $(ended left)" "/spin 499 $((left + 1))" "a client that leaves"
left=$(ended left)
# a reload, and a worker that quits, finish what runs
for how in HUP WINCH; do
    code $url/spin > "$room/$how" & rest[1]=$!
    sleep 0.3
    [ $how = HUP ] && sed -i 's|location /slug { wasmloop rules.wasm 0;|location /slug { wasmloop rules.wasm 3; wasmloop_fuel 100000000; wasmloop_time 20s;|' "$room/nginx.conf"
    kill -HUP $pid
    sleep 0.3
    [ $how = WINCH ] || want "$(get -d 'x' $url/slug)" "|200" "a reload"
    wait "${rest[1]}"
    want "$(cat "$room/$how")" 504 "a request that runs over a reload"
done
want "$(ended left) $(ended running)" "$left 0" "the counters after two reloads"
conf
kill -HUP $pid
sleep 0.3
# modules that are rejected: the configuration is, and the running one stays
for each in $(rejected); do
    chmod 644 "$room/$each.wasm"
    conf "$each.wasm"
    like "$(nginx -c "$room/nginx.conf" -p "$room" -t 2>&1)" "*wasmloop: \"$room/$each.wasm\": *" "a rejected module: $each"
done
cp "$top/examples/ticker.wasm" "$room/none.wasm"
conf none.wasm
like "$(nginx -c "$room/nginx.conf" -p "$room" -t 2>&1)" "*it exports no uv_work*" "a module without uv_work"
kill -HUP $pid
sleep 0.3
want "$(get -d 'Still There' $url/slug)" "still-there|200" "after a reload that was rejected"
# a storm of clients that come and leave
python3 - "$port" <<'P'
import random, socket, sys
random.seed(1)
held = []
for k in range(600):
    s = socket.create_connection(("127.0.0.1", int(sys.argv[1])))
    path = random.choice(["slug", "spin", "copies", "grow", "trap", "deep", "long", "few", "page.shtml"])
    s.sendall(b"POST /%s HTTP/1.1\r\nHost: x\r\nContent-Length: 3\r\n\r\nabc"[: random.choice([40, 999])] % path.encode())
    held.append(s)
    if random.random() < 0.8: held.pop(random.randrange(len(held))).close()
P
sleep 2
want "$(get -d 'After The Storm' $url/slug)" "after-the-storm|200" "600 clients that come and leave"
want "$(grep -cE 'signal|alert|zero size buf' "$room/logs/error.log")" 0 "no worker has crashed, no alert"
[ "$failed" = 0 ] || grep -E 'signal|alert' "$room/logs/error.log" | head -5
end
