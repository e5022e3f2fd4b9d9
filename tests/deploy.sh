#!/bin/sh
# deploy.sh [PROGRAM]: tests the files of deploy/, and those of central/ for a fleet. PROGRAM is
# out/sunreg by default, which `./sunreg-build` makes.
# - the units, with systemd-analyze
# - the configuration of nginx, with Debian's nginx and curl. Behind nginx is
#   tests/deploy/office.py, which records its requests, and then the program, if it is built
# - the certificate that certbot has renewed, with a nginx that runs
# - the files of Prometheus, with promtool and a Prometheus that sends its requests through nginx
# - the file of Alertmanager, with amtool and an Alertmanager that sends mail and a webhook to
#   tests/deploy/receivers.py
# - the dashboards' queries
#
# As root the script installs missing tools by apt (not with PEERS_INSTALL=no). It names tools that
# it can't install, and skips their checks. It uses only this machine's loopback, and takes two to
# five minutes beside proofs. It ends with 'N passed, M failed', and with ', K skipped' if checks
# were skipped.
# CHECKS is the number of all checks. Change it where you add a check, or a route to docs/HTTP.md.
set -u
here=$(dirname "$(readlink -f "$0")")
deploy=$here/../deploy
central=$here/../central
program=${1:-${SUNREG:-$here/../out/sunreg}}
[ ! -x "$program" ] || program=$(readlink -f "$program")
room=$(mktemp -d) || exit 2
children=''
trap 'for it in $children; do kill -9 "$it" 2> /dev/null; done; [ ! -s "$room/nginx.pid" ] || kill "$(cat "$room/nginx.pid")" 2> /dev/null; rm -rf "$room"' EXIT
. "$here/peers/install.sh"
# (nginx and prometheus may be in folders that only root searches)
PATH=$PATH:/usr/sbin:/sbin

install python3 curl openssl systemd-analyze nginx promtool prometheus-server amtool
chmod 755 "$room"
cd "$room" || exit 2
passed=0
failed=0
CHECKS=216
port=${DEPLOY_PORT:-18700}
tls=$((port + 1))
prometheus=$((port + 2))
alertmanager=$((port + 4))
mail=$((port + 5))
hook=$((port + 6))

# same WHAT GOT WANTED: compares a result with the expected one, and counts it
same() {
    if [ "$2" = "$3" ]; then
        passed=$((passed + 1))
    else
        failed=$((failed + 1))
        echo "$1: '$2', and not '$3'"
    fi
}

# fine WHAT WORDS..: a command succeeds
fine() {
    what=$1
    shift
    "$@" > said 2>&1
    same "$what" "$?$([ $? = 0 ] || tail -n 5 said)" 0
}

# waits WORDS..: runs a command until it succeeds, for 20 seconds
waits() {
    for turn in $(seq 100); do
        "$@" > said 2>&1 && return
        sleep 0.2
    done
    return 1
}

# ---- the units

# sunreg need not be installed here, so the units run another program
sed "s|^ExecStart=/usr/local/bin/sunreg |ExecStart=/bin/true |" "$deploy/sunreg.service" > sunreg.service
sed "s|^ExecStart=/usr/local/bin/sunreg-backup$|ExecStart=/bin/true|" "$deploy/sunreg-backup.service" > sunreg-backup.service
cp "$deploy/sunreg-backup.timer" .
if has systemd-analyze; then
    systemd-analyze verify ./sunreg.service > said 2>&1
    same 'the unit: systemd-analyze verify' "$? $(grep sunreg said)" '0 '
    # of 100: 12 when this was written, and 96 without all restrictions
    fine 'the unit: its exposure' systemd-analyze security --offline=yes --threshold=12 ./sunreg.service
    for word in CapabilityBoundingSet= ProtectSystem= NoNewPrivileges= SystemCallFilter=@ RestrictAddressFamilies= PrivateUsers=; do
        mkdir -p less
        grep -v "^$word" sunreg.service > less/sunreg.service
        systemd-analyze security --offline=yes --threshold=12 less/sunreg.service > said 2>&1
        same "the unit: its exposure without $word is seen" "$?" 1
    done
    systemd-analyze verify ./sunreg-backup.service ./sunreg-backup.timer > said 2>&1
    same 'the backup: systemd-analyze verify' "$? $(grep sunreg said)" '0 '
    # of 100: 5 when this was written
    fine 'the backup: its exposure' systemd-analyze security --offline=yes --threshold=6 ./sunreg-backup.service
    fine 'the backup: its time' systemd-analyze calendar "$(sed -n 's/^OnCalendar=//p' sunreg-backup.timer)"
    for it in sunreg-collect sunreg-collect-whole; do
        sed "s|/usr/local/bin/sunreg-collect|/bin/true|" "$central/$it.service" > "$it.service"
        cp "$central/$it.timer" .
        systemd-analyze verify "./$it.service" "./$it.timer" > said 2>&1
        same "$it: systemd-analyze verify" "$? $(grep sunreg said)" '0 '
        # of 100: 12 when this was written
        fine "$it: its exposure" systemd-analyze security --offline=yes --threshold=12 "./$it.service"
        fine "$it: its time" systemd-analyze calendar "$(sed -n 's/^OnCalendar=//p' "$it.timer")"
    done
    sed "s|^ExecStart=/usr/local/bin/sunreg-mqtt |ExecStart=/bin/true |" "$deploy/sunreg-mqtt.service" > sunreg-mqtt.service
    systemd-analyze verify ./sunreg-mqtt.service > said 2>&1
    same 'the bridge to MQTT: systemd-analyze verify' "$? $(grep sunreg said)" '0 '
    # of 100: 12 when this was written
    fine 'the bridge to MQTT: its exposure' systemd-analyze security --offline=yes --threshold=12 ./sunreg-mqtt.service
    same 'the unit: a word that systemd does not know is seen' "$(echo 'ProtectAll=yes' >> less/sunreg.service; systemd-analyze verify less/sunreg.service 2>&1 | grep -c ProtectAll)" 1
fi
same 'the settings are those of the command and of the backup' "$(sed -n 's/^\([A-Z_]*\)=.*/\1/p' "$deploy/sunreg.env" | sort)" \
    "$({ grep '^ExecStart=' "$deploy/sunreg.service" | grep -o '\$[{A-Z}]*' | tr -d '${}'; sed -n 's/^for it in \([A-Z_ ]*\); do$/\1/p' "$deploy/backup" | tr ' ' '\n'; } | sort -u)"
same 'the backup may write its folder' "$(sed -n 's/^ReadWritePaths=-//p' "$deploy/sunreg-backup.service")" "$(sed -n 's/^BACKUPS=//p' "$deploy/sunreg.env")"
same 'the weekly copy differs from the hourly one only in --whole, its limit and its name' "$(for it in sunreg-collect sunreg-collect-whole; do
    sed '1,4d; s/--whole //; s/^TimeoutStartSec=.*//; s/sunreg-collect-whole/sunreg-collect/' "$central/$it.service" > "plain.$it"; done; diff plain.sunreg-collect plain.sunreg-collect-whole)" ''
same 'only the weekly copy reads all' "$(grep -l -e ' --whole ' "$central"/*.service)" "$central/sunreg-collect-whole.service"
same 'the settings of the copies are those of their command' "$(sed -n 's/^\([A-Z_]*\)=.*/\1/p' "$central/sunreg-collect.env" | sort | xargs)" "$(grep -h '^ExecStart=' "$central"/*.service | grep -o '\$[{A-Z}]*' | tr -d '${}' | sort -u | xargs)"
same 'the copies may write the folder of their metrics' "$(sed -n 's/^ReadWritePaths=-//p' "$central"/*.service | sort -u)" "$(dirname "$(sed -n 's/^METRICS=//p' "$central/sunreg-collect.env")")"
same 'each option of their command is one of collect' "$(for it in $(grep -h '^ExecStart=' "$central"/*.service | sed 's/.*sunreg-collect //' | grep -o -e '--[a-z]*' | sort -u); do
    "$central/collect" --help | grep -q -e "^  $it" || echo "$it"; done)" ''
same 'the settings of the bridge to MQTT are those of its command' "$(sed -n 's/^\([A-Z_]*\)=.*/\1/p' "$deploy/sunreg-mqtt.env" | sort | xargs)" "$(grep '^ExecStart=' "$deploy/sunreg-mqtt.service" | grep -o '\$[{A-Z}]*' | tr -d '${}' | sort -u | xargs)"
fine 'the backup: its syntax' sh -n "$deploy/backup"
same 'each option of its command is one of run' "$(for it in $(grep '^ExecStart=' "$deploy/sunreg.service" | grep -o ' --[a-z]*'); do
    grep -q "^ *${it} <" "$here/arguments.py" || echo "$it"; done)" ''

# ---- nginx

# asks USER TARGET WORDS..: sends a request to nginx as a user, and prints status and body
asks() {
    user=$1
    target=$2
    shift 2
    rm -f body
    code=$(curl -sS -o body -w '%{http_code}' --path-as-is --max-time 20 --cacert cert.pem ${user:+-u "$user:word-of-$user"} "$@" "https://localhost:$tls$target" 2> said)
    same "curl for $target" "$(cat said)" ''
    echo "$code $(cat body 2> /dev/null)"
}

# came FIELD: prints a field of the last request that the office got
came() {
    tail -n 1 came | python3 -c 'import json, sys
came = json.load(sys.stdin)
print("|".join(value for name, value in came["headers"] if name == sys.argv[1].lower()) if sys.argv[1] not in came else came[sys.argv[1]])' "$1"
}

# status_of ANSWER: prints its first word
status_of() {
    echo "${1%% *}"
}

# rows METHOD: prints the targets of a method in docs/HTTP.md
rows() {
    sed -n "s/^| \`*$1 \`*\(\/[^\` ]*\)\`.*/\1/p" "$here/../docs/HTTP.md" | sed 's/{name}/m1/; s/{number}/1/; s/{from}/900/; s/{till}/1800/; s/{place}/1/; s/{first}/2026-11-01/; s/{end}/2026-12-01/'
}

if has nginx && has openssl; then
    openssl req -x509 -newkey ec -pkeyopt ec_paramgen_curve:P-256 -nodes -days 2 -subj /CN=localhost -addext subjectAltName=DNS:localhost -keyout key.pem -out cert.pem 2> said
    user() {
        echo "$1:$(echo "word-of-$1" | openssl passwd -6 -stdin)"
    }
    { user desk; user eye; } > sunreg.question
    user desk > sunreg.command
    python3 -c 'import socket, sys
journal = socket.socket(socket.AF_UNIX, socket.SOCK_DGRAM)
journal.bind(sys.argv[1])
while True: print(journal.recv(65536).decode(), flush=True)' "$room/log" > journal &
    children="$children $!"
    waits test -S log
    chmod 666 log
    : > came
    : > office.db
    OFFICE_CAME=$room/came python3 -B "$here/deploy/office.py" run --db office.db --listen "$port" --every 60 --devices inv=192.0.2.7:502 > office 2>&1 &
    office=$!
    children="$children $office"
    # another name, other ports and other folders, and no IPv6 if there is none
    sed "s|meters\.example|localhost|; s|:443 |:$tls |; s|listen 443 |listen $tls |; s|127\.0\.0\.1:8080|127.0.0.1:$port|; s|/dev/log|$room/log|; s|/etc/nginx/sunreg|$room/sunreg|
        s|/etc/ssl/certs/sunreg.pem|$room/cert.pem|; s|/etc/ssl/private/sunreg.key|$room/key.pem|" "$deploy/nginx.conf" > site.conf
    [ -s /proc/net/if_inet6 ] || sed -i '/listen \[::\]/d' site.conf
    cat > nginx.conf << END
pid $room/nginx.pid;
error_log $room/nginx.errors;
worker_processes 1;
events { worker_connections 200; }
http {
    client_body_temp_path $room/bodies;
    proxy_temp_path $room/replies;
    fastcgi_temp_path $room/none;
    uwsgi_temp_path $room/none;
    scgi_temp_path $room/none;
    include $room/site.conf;
}
END
    fine 'nginx: its configuration' nginx -p "$room" -c nginx.conf -e "$room/nginx.errors" -t
    fine 'nginx: it begins' nginx -p "$room" -c nginx.conf -e "$room/nginx.errors"
    waits grep -q listening office
    waits curl -s -o /dev/null -k "https://localhost:$tls/nothing"

    # Each route of docs/HTTP.md, for users who may use it, for others, and without a user.
    same 'rows of docs/HTTP.md are found' "$([ "$(rows POST | wc -l)" -ge 10 ] && [ "$(rows GET | wc -l)" -ge 6 ] || echo no)" ''
    for target in / $(rows GET); do
        same "GET $target: by one who may ask" "$(status_of "$(asks eye "$target")") $(came method) $(came target)" "200 GET $target"
    done
    number=0
    for target in $(rows POST); do
        number=$((number + 1))
        answer=$(asks desk "$target" -H 'Office-Caller: desk' -H "Office-Request: $number" -H 'Cookie: a=b' --data-binary "{\"n\":$number}")
        same "POST $target: by one who may command" "$(status_of "$answer") $(came method) $(came target) $(came body)" "200 POST $target {\"n\":$number}"
        same "POST $target: its headers" "$(came Office-Caller) $(came Office-Request) $(came Content-Length) $(came Host)" "desk $number $(printf '{"n":%s}' $number | wc -c) 127.0.0.1:$port"
        same "POST $target: what stays behind" "$(came Authorization)$(came Cookie)$(came Transfer-Encoding)" ''
    done
    lines=$(wc -l < came)
    for target in $(rows POST); do
        same "POST $target: by one who may ask alone" "$(status_of "$(asks eye "$target" -H 'Office-Caller: eye' -H 'Office-Request: 1' -d '{}')")" 401
    done
    for target in / /metrics /meters/m1; do
        same "GET $target: by nobody" "$(status_of "$(asks '' "$target")")" 401
    done
    same 'another word' "$(status_of "$(asks '' /status -u eye:word-of-desk)")" 401
    for target in /nothing '/status?x' /%6deters/m1 //meters/m1 /meters/m1/ /meters /meters/9 /Devices /meters/abcdefghijklmnopq /./status /meters/../status /registers/main/void /meters/m1/entries/; do
        same "GET $target: no route" "$(status_of "$(asks desk "$target")")" 404
    done
    same 'none of these came to the office' "$(wc -l < came)" "$lines"

    # Bodies.
    head -c 65536 /dev/zero | tr '\0' '#' > most
    head -c 65537 /dev/zero | tr '\0' '#' > more
    same 'as much as the office takes' "$(status_of "$(asks desk /devices/inv/list --data-binary @most)") $(came Content-Length) $(came body | tr -d '\n' | wc -c)" '200 65536 65536'
    same 'in chunks' "$(status_of "$(asks desk /devices/inv/list -H 'Transfer-Encoding: chunked' --data-binary @most)") $(came Content-Length) $(came Transfer-Encoding)" '200 65536 '
    lines=$(wc -l < came)
    same 'a byte more' "$(status_of "$(asks desk /devices/inv/list --data-binary @more)")" 413
    same 'a byte more, in chunks' "$(status_of "$(asks desk /devices/inv/list -H 'Transfer-Encoding: chunked' --data-binary @more)")" 413
    { printf 'POST /devices HTTP/1.1\r\nHost: localhost\r\nAuthorization: Basic %s\r\nContent-Length: 9\r\n\r\n{"n"' "$(printf 'desk:word-of-desk' | base64)"; sleep 2; } \
        | timeout 5 openssl s_client -quiet -connect "localhost:$tls" -servername localhost > said 2>&1
    same 'none of these came to the office' "$(wc -l < came)" "$lines"

    # Headers, hosts and the rest.
    asks desk /devices -H 'Office-Caller: a' -H 'Office-Caller: b' -H 'Office-Request: 1' -d '{}' > said
    same 'a header that stands twice is the office'"'"'s to judge' "$(came Office-Caller)" 'a|b'
    same 'a method that is none is the office'"'"'s to judge' "$(status_of "$(asks eye /status -X DELETE)") $(came method)" '405 DELETE'
    same 'HEAD' "$(status_of "$(asks eye /status -I)")" 405
    same 'OPTIONS, as of a foreign page' "$(status_of "$(asks desk /devices -X OPTIONS -H 'Origin: https://elsewhere.example' -D head)") $(grep -ci '^access-control' head)" '405 0'
    same 'a text without a length is whole' "$(asks eye /registers/main/days)" '200 1900 200000
end 1'
    asks eye /meters/m1 -D head > said
    same 'no reply is kept' "$(grep -i '^cache-control' head | tr -d '\r')" 'Cache-Control: no-store'
    same 'another host in the request' "$(status_of "$(asks eye /status -H 'Host: elsewhere.example')")" 421
    curl -s -k --resolve "elsewhere.example:$tls:127.0.0.1" "https://elsewhere.example:$tls/status" > said 2>&1
    same 'another host in the handshake' "$?" 35
    curl -s -k --tls-max 1.1 --ciphers 'DEFAULT@SECLEVEL=0' "https://localhost:$tls/status" > said 2>&1
    same 'an old TLS' "$?" 35
    same 'without TLS' "$(curl -s -o said -w '%{http_code}' -u eye:word-of-eye "http://localhost:$tls/status")" 400
    same 'the journal has who asked' "$(grep -c 'sunreg_nginx: .* eye .*"GET /meters/m1 HTTP/1.1" 200' journal | sed 's/^[1-9].*/yes/')" yes
    same 'and no passwords' "$(grep -c -e word-of -e "$(printf 'eye:word-of-eye' | base64)" journal)" 0
    same 'nginx wrote no file' "$(grep -v '\[notice\]' nginx.errors; find . -name '*access*')" ''

    # The line that makes the user the caller.
    sed -i 's|#proxy_set_header Office-Caller|proxy_set_header Office-Caller|' site.conf
    nginx -p "$room" -c nginx.conf -e "$room/nginx.errors" -s reload
    sleep 1
    same 'a caller that is the user' "$(status_of "$(asks desk /devices -H 'Office-Caller: other' -H 'Office-Request: 1' -d '{}')") $(came Office-Caller)" '200 desk'
fi

# ---- a certificate that was renewed

# renewed FOLDER DAYS: makes a certificate in a folder, as certbot keeps it
renewed() {
    mkdir -p "$1"
    openssl req -x509 -newkey ec -pkeyopt ec_paramgen_curve:P-256 -nodes -days "$2" -subj /CN=localhost -addext subjectAltName=DNS:localhost -keyout "$1/privkey.pem" -out "$1/fullchain.pem" 2> said
}

# hooked FOLDER: runs the script that certbot runs, for a folder, and prints its status and its text
hooked() {
    RENEWED_LINEAGE=$1 PATH=$room/stubs:$PATH sh certificate > said 2>&1
    echo "$? $(head -n 1 said)"
}

# served: prints the fingerprint of the certificate that nginx shows
served() {
    openssl s_client -connect "localhost:$tls" -servername localhost < /dev/null 2> said | openssl x509 -noout -fingerprint 2> said
}

# files_of_nginx: prints the checksums of its certificate and key, and files beside them
files_of_nginx() {
    cat cert.pem key.pem | cksum
    ls | grep -E '^(cert|key)\.pem\.'
}

fine 'the certificate: its syntax' sh -n "$deploy/certificate"
if has nginx && has openssl; then
    sed "s|=/etc/ssl/certs/sunreg.pem|=$room/cert.pem|; s|=/etc/ssl/private/sunreg.key|=$room/key.pem|" "$deploy/certificate" > certificate
    mkdir stubs
    printf '#!/bin/sh\n[ ! -e %s/refuses ] || { echo nginx: refused >&2; exit 1; }\nexec %s -p %s -c nginx.conf -e %s/nginx.errors "$@"\n' "$room" "$(command -v nginx)" "$room" "$room" > stubs/nginx
    printf '#!/bin/sh\n[ "$*" = "reload nginx" ] && [ ! -e %s/refuses-reload ] && exec %s/stubs/nginx -s reload\n' "$room" "$room" > stubs/systemctl
    chmod 755 stubs/nginx stubs/systemctl
    renewed fresh 30
    renewed other 30
    before=$(files_of_nginx)
    mkdir mixed && cp fresh/fullchain.pem mixed && cp other/privkey.pem mixed
    mkdir broken && cp fresh/privkey.pem broken && echo none > broken/fullchain.pem
    same 'the certificate: nothing was renewed' "$(hooked '')" "1 sunreg-certificate: no fullchain.pem and privkey.pem in RENEWED_LINEAGE, which is ''"
    same 'the certificate: another key' "$(hooked "$room/mixed")" "1 sunreg-certificate: the key in $room/mixed does not fit its certificate"
    same 'the certificate: no certificate' "$(hooked "$room/broken" > ended; tail -n 1 said)" "sunreg-certificate: $room/broken/fullchain.pem is no certificate"
    touch refuses
    same 'the certificate: nginx refuses it' "$(hooked "$room/fresh")" '1 sunreg-certificate: nginx refuses the new certificate: nginx: refused'
    rm refuses
    same 'the certificate: the old files are as before' "$(files_of_nginx)" "$before"
    mkdir expired && cp fresh/privkey.pem expired
    openssl req -new -key fresh/privkey.pem -subj /CN=localhost 2> said | openssl x509 -req -signkey fresh/privkey.pem -days -1 -out expired/fullchain.pem 2> said
    same 'the certificate: it has expired' "$(hooked "$room/expired") $(files_of_nginx)" "1 sunreg-certificate: the certificate in $room/expired has expired $before"
    same 'the certificate: it is renewed' "$(hooked "$room/fresh")" "0 sunreg-certificate: nginx has the certificate that ends on $(openssl x509 -noout -enddate -in fresh/fullchain.pem | cut -d = -f 2)"
    same 'the certificate: its files' "$(files_of_nginx) $(stat -c %a cert.pem key.pem | xargs)" "$(cat fresh/fullchain.pem fresh/privkey.pem | cksum) 644 600"
    is_served() {
        [ "$(served)" = "$(openssl x509 -noout -fingerprint -in fresh/fullchain.pem)" ]
    }
    fine 'the certificate: nginx shows it' waits is_served
    same 'the certificate: and serves requests' "$(status_of "$(asks eye /status)")" 200
    touch refuses-reload
    same 'the certificate: nginx does not reload' "$(hooked "$room/fresh")" '1 sunreg-certificate: the new certificate is in place, but nginx does not reload: type systemctl status nginx'
    rm refuses-reload
    same 'the certificate: the paths are those of nginx.conf' "$(sed -n 's/^certificate=//p; s/^key=//p' "$deploy/certificate")" "$(sed -n 's/^ *ssl_certificate[_key]* \(.*\);/\1/p' "$deploy/nginx.conf")"
fi

# ---- Prometheus and the dashboards

# metrics: prints the names of the program's metrics, from its source
metrics() {
    sed -n 's/^ *b"\(sunreg_[a-z_]*\)",$/\1/p' "$here/../crates/run_http/src/texts/metrics.rt" "$here/../crates/run_http/src/texts/energy_lines.rt" | sort
}

# strange FILE: prints the names in a file that are no metrics
strange() {
    grep -o 'sunreg_[a-z_]*' "$1" | sort -u | while read -r it; do metrics | grep -q -x "$it" || echo "$it"; done
}

# unused FILE: prints the metrics that a file lacks
unused() {
    metrics | while read -r it; do grep -q "$it" "$1" || echo "$it"; done
}

same 'the metrics are found' "$([ "$(metrics | wc -l)" -ge 6 ] || echo no)" ''
for it in alerts.yml grafana.json; do
    same "$it: all its metrics are those of the program" "$(strange "$deploy/$it")" ''
done
same 'grafana.json: all metrics of the program are in it' "$(unused "$deploy/grafana.json")" ''
same 'central/alerts.yml: all its metrics are those of collect' "$(grep -h -o 'sunreg_[a-z_]*' "$central/alerts.yml" "$central/grafana.json" | sort -u | while read -r it; do grep -q "^    \"$it\": \"" "$central/collect" || echo "$it"; done)" ''
same 'central/grafana.json: all metrics of collect are in it' "$(sed -n 's/^    "\(sunreg_collect_[a-z_]*\)": ".*/\1/p' "$central/collect" | while read -r it; do grep -q "$it" "$central/grafana.json" || echo "$it"; done)" ''
same 'its labels are those of the program' "$(grep -o '[a-z]*=\\*"[a-z_]*\\*"' "$deploy/alerts.yml" | grep -v '^job=' | tr -d '\\' | sort -u | while read -r it; do
    sed 's/\\//g' "$here/../crates/run_http/src/texts/metrics.rt" | grep -q -F "$it" || echo "$it"; done)" ''
# queries FILE LABEL: prints the queries of a dashboard as rules, and checks its panels. Several
# sites are on one panel. So each legend names the site, or the query is one sum over all sites
queries() {
    python3 - "$1" "$2" << 'END'
import json, re, sys

board, label = json.load(open(sys.argv[1])), "{{%s}}" % sys.argv[2]
panels = board["panels"]
assert len({it["id"] for it in panels}) == len(panels) and all(it["targets"] for it in panels)
over_all = re.compile(r"(time\(\) - )?(sum|count|max)\([^()]*(\(\)[^()]*)*\)( or vector\(0\))?")
for target in (target for it in panels for target in it["targets"]):
    legend = target["legendFormat"]
    is_sum = over_all.fullmatch(target["expr"]) and "{{" not in legend
    assert label in legend or "{{instance}}" in legend or is_sum, (target["expr"], legend)
assert all(it["title"] and it["description"] for it in panels)
places = [(x, y) for it in panels for at in [it["gridPos"]] for x in range(at["x"], at["x"] + at["w"]) for y in range(at["y"], at["y"] + at["h"])]
assert len(set(places)) == len(places) and max(x for x, _ in places) < 24
queries = [target["expr"].replace("$__rate_interval", "4m") for it in panels for target in it["targets"]]
rules = [{"record": f"query:{k}", "expr": it} for k, it in enumerate(queries)]
json.dump({"groups": [{"name": "queries", "rules": rules}]}, sys.stdout)
END
}

queries "$deploy/grafana.json" instance > queries.yml 2> said
same 'grafana.json: JSON, whose panels have queries and places of their own' "$?$(tail -n 1 said)" 0
queries "$central/grafana.json" site > queries.fleet.yml 2> said
same 'central/grafana.json: JSON, whose panels have queries and places of their own' "$?$(tail -n 1 said)" 0
# A legend without the site is seen, in a query of each site and in a sum by site.
for it in 's/{{site}} {{fault}}/{{fault}}/' 's/"sum(sunreg_collect_site_rows)"/"sum by (site) (sunreg_collect_site_rows)"/' 's/"legendFormat": "rows"/"legendFormat": "{{fault}}"/'; do
    sed "$it" "$central/grafana.json" > less.json
    same "central/grafana.json: $it is seen" "$(cmp -s less.json "$central/grafana.json" || queries less.json site 2>&1 > said | grep -c AssertionError)" 1
done
if has promtool; then
    cp "$deploy/alerts.yml" "$here/deploy/alerts.test.yml" "$here/deploy/alerts.days.test.yml" .
    fine 'the dashboard'"'"'s queries' promtool check rules queries.yml
    fine 'the queries of the fleet'"'"'s dashboard' promtool check rules queries.fleet.yml
    fine 'the alerts' promtool check rules alerts.yml
    fine 'the alerts, over made-up series' promtool test rules alerts.test.yml alerts.days.test.yml
    # Each alert is tested: without it, the tests fail.
    for it in $(sed -n 's/.*- alert: //p' "$deploy/alerts.yml"); do
        sed "s/- alert: $it\$/- alert: Other/" "$deploy/alerts.yml" > alerts.yml
        promtool test rules $(grep -l "alertname: $it\$" alerts.test.yml alerts.days.test.yml) > said 2>&1
        same "the cases fail without $it" "$?" 1
    done
    cp "$deploy/alerts.yml" alerts.yml
    mkdir fleet
    cp "$here/central/alerts.test.yml" fleet
    cp "$central/alerts.yml" fleet/fleet.yml
    fine 'the alerts of a fleet' promtool check rules fleet/fleet.yml
    fine 'the alerts of a fleet, over made-up series' promtool test rules fleet/alerts.test.yml
    # Without an alert the tests fail, and with another limit, too.
    tries_fleet() {
        sed "$1" "$central/alerts.yml" > fleet/fleet.yml
        promtool test rules fleet/alerts.test.yml > said 2>&1
        same "the cases fail with $1" "$? $(cmp -s fleet/fleet.yml "$central/alerts.yml" && echo the same)" '1 '
    }
    for it in $(sed -n 's/.*- alert: //p' "$central/alerts.yml"); do
        tries_fleet "s/- alert: $it\$/- alert: Other/"
    done
    while read -r it; do
        tries_fleet "$it"
    done << 'END'
/alert: SunregSiteNotCopied/,/labels/s/86400/85800/
/alert: SunregSiteNotCopied/,/labels/s/86400/87000/
s/for: 2h/for: 110m/
s/for: 2h/for: 130m/
s/differences > 0/differences >= 0/
s/differences > 0/differences > 1/
/alert: SunregCollectNotRun/,/labels/s/86400/85800/
/alert: SunregCollectNotRun/,/labels/s/86400/87000/
s/8 \* 86400/690600/
s/8 \* 86400/691800/
s/for: 1h/for: 50m/
s/for: 1h/for: 70m/
END
    # The head of a fleet's Prometheus, and the jobs of 1,000 sites.
    for it in $(seq 1000); do echo "site$it https://site$it.example/office user=user$it password=word$it"; done > thousand
    chmod 600 thousand
    cp "$central/alerts.yml" fleet/fleet.yml
    fine 'the jobs of 1,000 sites are written' env SSL_CERT_FILE=/etc/hostname "$central/collect" --targets thousand.yml thousand
    sed "s|/etc/prometheus/sunreg-alerts.yml|$room/alerts.yml|; s|/etc/prometheus/sunreg-fleet.yml|$room/fleet/fleet.yml|" "$central/prometheus.yml" | cat - thousand.yml > fleet/prometheus.yml
    fine 'the configuration of 1,000 sites' promtool check config fleet/prometheus.yml
    same 'it has all of them' "$(grep -c '"job_name": "sunreg/site' fleet/prometheus.yml)" 1000
    python3 -B -c 'import sys; sys.path.insert(0, sys.argv[1]); import office; print(office.told("METRICS"), end="")' "$here/deploy" > metrics
    promtool check metrics < metrics > said 2>&1
    same 'the metrics that the proved tests expect' "$? $(cat said)" '0 '
    sed "s|/etc/prometheus/sunreg-alerts.yml|$room/alerts.yml|; s|/etc/prometheus/sunreg.password|$room/password|; s|/etc/prometheus/sunreg.pem|$room/cert.pem|
        s|meters\.example:443|localhost:$tls|; s|username: prometheus|username: eye|; s|: 60s|: 1s|; s|: 15s|: 1s|" "$deploy/prometheus.yml" > prometheus.yml
    echo word-of-eye > password
    # its Alertmanager, and an office by the jobs that collect writes
    sed -i "/^#alerting:/,/^#  *- targets/s/^#//; s|127\.0\.0\.1:9093|127.0.0.1:$alertmanager|" prometheus.yml
    echo "north https://localhost:$tls user=eye password=word-of-eye" > north
    chmod 600 north
    SSL_CERT_FILE=$room/cert.pem "$central/collect" --targets north.yml north && cat north.yml >> prometheus.yml
    if has nginx && has openssl; then
        fine 'what Prometheus is told' promtool check config prometheus.yml
    fi
fi

# has_found QUERY VALUE: whether Prometheus has one series of a query, of that value
has_found() {
    [ "$(curl -s --get "http://127.0.0.1:$prometheus/api/v1/query" --data-urlencode "query=$1" \
        | python3 -c 'import json, sys; print(*[it["value"][1] for it in json.load(sys.stdin)["data"]["result"]])')" = "$2" ]
}

if has promtool && has prometheus-server && has nginx && has openssl; then
    prometheus --config.file prometheus.yml --storage.tsdb.path tsdb --web.listen-address "127.0.0.1:$prometheus" --log.level warn > prometheus.log 2>&1 &
    children="$children $!"
    waits has_found "up{job=\"sunreg\", instance=\"localhost:$tls\"}" 1
    same 'Prometheus asks through nginx' "$?$([ $? = 0 ] || cat prometheus.log)" 0
    fine 'and finds what the office counts' waits has_found "sunreg_polls_total{outcome=\"answered\", instance=\"localhost:$tls\"}" 2
    fine 'and goes by the alerts' waits has_found "ALERTS{alertname=\"SunregNoReading\", device=\"grid\", alertstate=\"pending\", instance=\"localhost:$tls\"}" 1
    fine 'it asks as a job of the list, too' waits has_found 'up{job="sunreg", instance="north"}' 1
    same 'it knows its Alertmanager' "$(curl -s "http://127.0.0.1:$prometheus/api/v1/alertmanagers" | python3 -c 'import json, sys; print(*[it["url"] for it in json.load(sys.stdin)["data"]["activeAlertmanagers"]])')" "http://127.0.0.1:$alertmanager/api/v2/alerts"
fi

# ---- Alertmanager

# routed LABELS..: prints the receiver of an alert
routed() {
    amtool config routes test --config.file="$deploy/alertmanager.yml" "$@" 2> said
}

# has_got WORDS..: whether a receiver got a line with all these words
has_got() {
    cp got got.now
    for it in "$@"; do
        grep -F -e "$it" got.now > got.then
        mv got.then got.now
    done
    [ -s got.now ]
}

same 'the severities of all alerts' "$(sed -n 's/^ *severity: //p' "$deploy/alerts.yml" "$central/alerts.yml" | sort -u | xargs)" 'page ticket'
same 'each alert that another one silences is there' "$(sed -n 's/.*Sunreg(\(.*\)).*/\1/p' "$deploy/alertmanager.yml" | tr '|' '\n' | while read -r it; do
    grep -q "alert: Sunreg$it\$" "$deploy/alerts.yml" "$central/alerts.yml" || echo "$it"; done)" ''
if has amtool; then
    fine 'Alertmanager: its configuration' amtool check-config "$deploy/alertmanager.yml"
    same 'Alertmanager: a page' "$(routed alertname=SunregDown severity=page)" on-call
    same 'Alertmanager: a ticket' "$(routed alertname=SunregHeld severity=ticket)" desk
    same 'Alertmanager: another alert' "$(routed alertname=Other)" desk
    sed "s|mail\.example:587|localhost:$mail|; s|https://pager\.example/sunreg|http://127.0.0.1:$hook/sunreg|; s|/etc/prometheus/mail.password|$room/mail.password|; s|group_wait: .*|group_wait: 1s|
        s|^  smtp_from: |  smtp_require_tls: false\n  smtp_from: |" "$deploy/alertmanager.yml" > alertmanager.yml
    echo word-of-mail > mail.password
    : > got
    python3 -B "$here/deploy/receivers.py" "$mail" "$hook" > got 2> said &
    children="$children $!"
    waits grep -q listening got
    prometheus-alertmanager --config.file alertmanager.yml --storage.path alerts --web.listen-address "127.0.0.1:$alertmanager" --cluster.listen-address= --log.level warn > alertmanager.log 2>&1 &
    children="$children $!"
    fine 'Alertmanager: it begins' waits curl -sf "http://127.0.0.1:$alertmanager/-/ready"
    add() {
        amtool --alertmanager.url "http://127.0.0.1:$alertmanager" alert add "$@" > said 2>&1
    }
    add alertname=SunregDown severity=page instance=a:443
    add alertname=SunregHeld severity=ticket instance=a:443
    add alertname=SunregHeld severity=ticket instance=b:443
    fine 'Alertmanager: a page is a mail' waits has_got 'mail from sunreg@meters.example, user sunreg@meters.example word-of-mail, to on-call@meters.example:' SunregDown a:443
    fine 'Alertmanager: and a call of the webhook' waits has_got 'POST /sunreg:' '"receiver":"on-call"' '"status":"firing"' SunregDown
    fine 'Alertmanager: a ticket is a mail to the desk' waits has_got 'to desk@meters.example:' SunregHeld b:443
    same 'Alertmanager: an office that is down has no other alerts' "$(grep -F SunregHeld got | grep -c a:443)" 0
    same 'Alertmanager: a ticket calls no webhook' "$(grep -F 'POST /sunreg' got | grep -c SunregHeld)" 0
fi

# ---- without an office, and the program

if has nginx && has openssl; then
    kill "$office"
    wait "$office" 2> said
    same 'where there is no office' "$(status_of "$(asks eye /status)")" 502
    if [ -x "$program" ]; then
        rm -f office.db
        "$program" create --db office.db --zone UTC0 > said 2>&1
        same 'the program: an office is made' "$?" 0
        "$program" run --db office.db --listen "$port" --every 1 --devices "inv=127.0.0.1:$((port + 3))" > ran 2>&1 &
        office=$!
        children="$children $office"
        waits grep -q listening ran
        same 'the program: a device' "$(asks desk /devices -H 'Office-Caller: desk' -H 'Office-Request: 1' -d '{"name":"inv","unit":1,"timeout":1,"window":1}')" '200 {"done":"device"}'
        same 'the program: its status' "$(asks eye /status | grep -c '"polls":{"answered":')" 1
        same 'the program: all metrics' "$(asks eye /metrics > told; metrics | while read -r it; do grep -q "# TYPE $it " told || echo "$it"; done)" ''
        kill "$office"
        wait "$office" 2> said
        same 'the program: SIGTERM ends it' "$?" 143
        same 'where it has ended' "$(status_of "$(asks eye /status)")" 502
    else
        echo "$0: $program is not built"
        lacks="$lacks sunreg"
    fi
fi

skipped=$((CHECKS - passed - failed))
if [ -n "$lacks" ]; then
    echo "$0: skipped $skipped checks, which need" $lacks
    echo "$passed passed, $failed failed, $skipped skipped"
else
    same 'the number of checks' "$((passed + failed))" "$CHECKS"
    echo "$passed passed, $failed failed"
fi
[ "$failed" = 0 ]
