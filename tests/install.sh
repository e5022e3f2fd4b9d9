#!/bin/bash
# install.sh [PROGRAM]: types the commands of docs/INSTALL.md and docs/PACKAGES.md in order, and
# compares their output with the pages. Then it lets the unit's program end in each way. PROGRAM is
# out/sunreg by default, which `./sunreg-build` makes; tests/deploy/office.py replaces a program
# that is not built. Nothing of this machine changes. All commands run in separate namespaces, over
# a temporary /etc, /var, /usr, /root, /run and /dev. Their systemd has only the units of the pages.
# Their network is a loopback, where 192.0.2.7 and meters.example are this machine. The script names
# commands that need a network, and does not type them. As root it installs missing tools by apt
# (not with PEERS_INSTALL=no), and skips the commands of tools that it can't install. It needs root
# and cgroups of version 2, takes some minutes, and ends with 'N passed, M failed'.
set -u
here=$(dirname "$(readlink -f "$0")")
PATH=$PATH:/usr/sbin:/sbin

# ---- within the namespaces

# typed COMMAND: whether a command is typed here
typed() {
    local it
    case $1 in
        apt-get\ * | ./sunreg-build | timedatectl\ * | *systemd-time-wait-sync*) return 1 ;;
    esac
    for it in $lacks; do
        case $it:$1 in
            nginx:*nginx* | nginx:ask\ * | nginx:sleep\ 90 | nginx:*api/v1*) return 1 ;;
            prometheus:*/etc/prometheus* | prometheus:*/default/prometheus | prometheus:systemctl\ *prometheus | prometheus:sleep\ 90 | prometheus:*api/v1*) return 1 ;;
        esac
    done
}

# type_it COMMAND WANTED: types a command in this shell, and compares its status and output with
# what is expected, where `...` matches any text
type_it() {
    local got status wanted
    if ! typed "$1"; then
        echo "not typed: $1"
        return
    fi
    eval "$1" > "$ROOM/printed" 2>&1 < /dev/null
    status=$?
    got=$(cat "$ROOM/printed")
    wanted=${2//\\/\\\\}
    wanted=${wanted//\*/\\*}
    wanted=${wanted//\?/\\?}
    wanted=${wanted//\[/\\[}
    wanted=${wanted//.../*}
    if [ "$status" = 0 ] && [[ $got == $wanted ]]; then
        passed=$((passed + 1))
    else
        failed=$((failed + 1))
        printf '%s\n  ended with %s and printed:\n%s\n  and not:\n%s\n' "$1" "$status" "$got" "$2"
    fi
}

# type_page NAME: types the commands in the blocks of a page of docs/
type_page() {
    local in_block='' command='' wanted='' line
    while IFS= read -r line <&3; do
        case $in_block:$line in
            :'```console') in_block=yes; command=''; wanted='' ;;
            yes:'```' | yes:'# '*)
                [ -z "$command" ] || type_it "$command" "$wanted"
                command=${line#'# '}
                wanted=''
                [ "$line" != '```' ] || in_block='' command='' ;;
            yes:*) wanted=$wanted${wanted:+$'\n'}$line ;;
        esac
    done 3< "docs/$1"
}

# over FOLDER: mounts a temporary folder over one
over() {
    mkdir -p "$ROOM/over$1/new" "$ROOM/over$1/work"
    mount -t overlay overlay -o "lowerdir=$1,upperdir=$ROOM/over$1/new,workdir=$ROOM/over$1/work" "$1"
}

# same WHAT GOT WANTED: compares a result with the expected one, and counts it
same() {
    if [ "$2" = "$3" ]; then
        passed=$((passed + 1))
    else
        failed=$((failed + 1))
        echo "$1: '$2', and not '$3'"
    fi
}

# waits SECONDS WORDS..: runs a command until it succeeds
waits() {
    local turn seconds=$1
    shift
    for turn in $(seq $((5 * seconds))); do
        "$@" > "$ROOM/said" 2>&1 && return
        sleep 0.2
    done
    return 1
}

# shown NAME..: prints properties of the unit, in systemd's order
shown() {
    systemctl show $(printf -- '--property=%s ' "$@") --value sunreg | paste -s -d ' '
}

# ends STATUS: lets the program end with a status when it begins, for five seconds. Prints whether
# it was started again, and the unit's state three seconds after it may run
ends() {
    local anew
    echo "$1" > /var/lib/sunreg/ends
    systemctl reset-failed sunreg 2> "$ROOM/said"
    systemctl start sunreg 2> "$ROOM/said"
    sleep 5
    anew=$(shown NRestarts)
    rm /var/lib/sunreg/ends
    sleep 3
    echo "$([ "$anew" = 0 ] && echo once || echo again) $(systemctl is-active sunreg)"
    systemctl stop sunreg
}

# unit_ends: the unit with a short pause before a restart, over a program that exits with the status
# in a file
unit_ends() {
    local main status
    useradd --system --home-dir /var/lib/sunreg --shell /usr/sbin/nologin sunreg
    install -m 644 deploy/sunreg.env /etc/default/sunreg
    install -m 644 deploy/sunreg.service /etc/systemd/system/sunreg.service
    mkdir /etc/systemd/system/sunreg.service.d
    printf '[Service]\nRestartSec=1\n' > /etc/systemd/system/sunreg.service.d/soon.conf
    printf '#!/bin/sh\n[ ! -e /var/lib/sunreg/ends ] || exit "$(cat /var/lib/sunreg/ends)"\nexec %s "$@"\n' "$PWD/out/sunreg" > /usr/local/bin/sunreg
    chmod 755 /usr/local/bin/sunreg
    systemctl daemon-reload
    # (without a file the program exits with 3)
    systemctl start sunreg 2> "$ROOM/said"
    same 'its folder is made, and is its own' "$(stat -c '%U %G %a' /var/lib/sunreg)" 'sunreg sunreg 750'
    runuser -u sunreg -- sunreg create --db /var/lib/sunreg/office.db --zone UTC0 > "$ROOM/said" 2>&1
    same 'it begins once it has its file' "$(waits 10 curl -sf http://127.0.0.1:8080/status && systemctl is-active sunreg)" active
    main=$(shown MainPID)
    status=/proc/$main/status
    same 'it has its user, and no capability' "$(stat -c %U "/proc/$main") $(sed -n 's/^Cap...:\t//p' "$status" | sort -u)" 'sunreg 0000000000000000'
    same 'it gets no more' "$(sed -n 's/^NoNewPrivs:\t//p' "$status") $(sed -n 's/^Seccomp:\t//p' "$status")" '1 2'
    for it in /etc /var/lib /usr/local /home; do
        same "$it can't be written" "$(nsenter -t "$main" -m touch "$it/new" 2>&1 | grep -c 'Read-only file system')" 1
    done
    same 'its folder can be' "$(nsenter -t "$main" -m touch /var/lib/sunreg/new 2>&1; rm -f /var/lib/sunreg/new)" ''
    systemctl reset-failed sunreg
    systemctl kill --signal=KILL sunreg
    sleep 3
    same 'SIGKILL: it is begun anew' "$(shown NRestarts ActiveState)" '1 active'
    systemctl kill --signal=TERM sunreg
    sleep 3
    same 'SIGTERM: it stays ended, and that is no fault' "$(shown Result ActiveState)" 'success inactive'
    same 'status 1' "$(ends 1)" 'once failed'
    same 'status 2' "$(ends 2)" 'once failed'
    same 'status 3' "$(ends 3)" 'again active'
    [ "$is_built" = yes ] || return
    # a new file each month
    sed -i 's/^MORE=.*/MORE=--carry month/' /etc/default/sunreg
    systemctl reset-failed sunreg 2> "$ROOM/said"
    systemctl start sunreg 2> "$ROOM/said"
    same 'the month has a file' "$(waits 10 curl -sf http://127.0.0.1:8080/status && stat -c '%U %G %a' "/var/lib/sunreg/office-$(date -u +%Y-%m).db")" 'sunreg sunreg 600'
    systemctl restart sunreg
    same 'it goes on in that' "$(waits 10 curl -sf http://127.0.0.1:8080/status && find /var/lib/sunreg -name 'office-*.db' | wc -l) $(systemctl is-active sunreg)" '1 active'
    systemctl stop sunreg
}

# typing: the work after systemd runs
typing() {
    cd /usr/local/src/sunreg || exit 2
    PATH=/usr/local/sbin:/usr/local/bin:/usr/sbin:/usr/bin:/sbin:/bin
    waits 30 systemctl is-active --quiet multi-user.target || { echo "install.sh: no systemd begins here" >&2; exit 2; }
    systemctl start systemd-journald.socket systemd-journald-dev-log.socket systemd-journald.service
    if [ "$is_built" = yes ]; then
        printf 'area holding 40000 100\nset holding 40095 5200\n' | out/sunreg stand-in --host 192.0.2.7 --port 502 --connections 1000 > "$ROOM/device" 2>&1 &
    fi
    umask 022
    type_page INSTALL.md
    type_page PACKAGES.md
    same 'the user is gone' "$(id -u sunreg 2> "$ROOM/said")" ''
    same 'and all files are' "$(find /etc /var/lib /usr/bin /usr/lib/systemd /usr/local/bin /root -name '*sunreg*' 2> "$ROOM/said")" ''
    unit_ends
    echo "$passed passed, $failed failed"
    [ "$failed" = 0 ]
}

# within: mounts the temporary folders, and becomes systemd
within() {
    local it
    mount --make-rprivate /
    mount -t tmpfs -o mode=755 scratch "$ROOM" || exit 2
    for it in /etc /var /usr /root; do
        over $it || { echo "install.sh: $it can't be laid over" >&2; exit 2; }
    done
    mkdir "$ROOM/dev" "$ROOM/dev/shm" "$ROOM/dev/pts" "$ROOM/units"
    chmod 1777 "$ROOM/dev/shm"
    for it in null zero full random urandom tty; do
        [ -e /dev/$it ] || continue
        touch "$ROOM/dev/$it"
        mount --bind /dev/$it "$ROOM/dev/$it"
    done
    ln -s /proc/self/fd "$ROOM/dev/fd"
    ln -s pts/ptmx "$ROOM/dev/ptmx"
    mount --rbind "$ROOM/dev" /dev
    mount -t devpts -o newinstance,ptmxmode=666 devpts /dev/pts
    mount -t tmpfs -o mode=755 scratch /run
    # the kernel's settings are read-only; of cgroups only those below ours exist
    mount --bind /proc/sys /proc/sys && mount -o remount,bind,ro /proc/sys || exit 2
    mount --bind /sys /sys && mount -o remount,bind,ro /sys && mount -t cgroup2 cgroup2 /sys/fs/cgroup || exit 2
    ip link set lo up
    ip address add 192.0.2.7/32 dev lo
    echo '127.0.0.1 meters.example' >> /etc/hosts
    # as on a fresh machine
    userdel sunreg 2> "$ROOM/said"
    rm -rf /var/lib/sunreg /etc/default/sunreg /etc/nginx/sunreg.* /etc/systemd/system/* /var/log/journal
    # (a trigger of man-db reads all manual pages, which takes minutes)
    echo no-triggers > /etc/dpkg/dpkg.cfg.d/no-triggers
    # the top of the repository, with the program, in a folder that another user can read
    mkdir -p /usr/local/src
    cp -r "$ROOM.copy" /usr/local/src/sunreg
    chmod -R a+rX /usr/local/src/sunreg
    for it in sysinit basic multi-user shutdown timers network-online nss-lookup time-sync; do
        printf '[Unit]\nDefaultDependencies=no\n' > "$ROOM/units/$it.target"
    done
    for it in systemd-journald.service systemd-journald.socket systemd-journald-dev-log.socket nginx.service prometheus.service; do
        cp "/lib/systemd/system/$it" "$ROOM/units" 2> "$ROOM/said"
    done
    # only the units of a package
    mount -t tmpfs -o mode=755 scratch /usr/lib/systemd/system
    (bash "$0" --typing "$ROOM" "$is_built" "$lacks"; echo $? > "$ROOM.copy/ended") &
    export container=sunreg-install SYSTEMD_UNIT_PATH=/etc/systemd/system:/usr/lib/systemd/system:$ROOM/units SYSTEMD_LOG_TARGET=null
    exec setpriv --bounding-set=-sys_time,-sys_module,-sys_boot,-sys_rawio,-syslog --inh-caps=-all /lib/systemd/systemd --unit=multi-user.target > "$ROOM/systemd" 2>&1 < /dev/null
}

if [ "${1:-}" = --within ] || [ "${1:-}" = --typing ]; then
    ROOM=$2
    is_built=$3
    lacks=$4
    passed=0
    failed=0
    "${1#--}"
    exit
fi

# ---- without

program=${1:-${SUNREG:-$here/../out/sunreg}}
room=$(mktemp -d) || exit 2
mkdir "$room.copy"
trap 'leave; rm -rf "$room" "$room.copy"' EXIT
. "$here/peers/install.sh"

# leave: ends all processes in the namespaces, and removes their cgroups
leave() {
    [ -d "${group:-}" ] || return
    for turn in $(seq 50); do
        running=$(find "$group" -name cgroup.procs -exec cat {} + 2> /dev/null)
        [ -n "$running" ] || break
        kill -9 $running 2> /dev/null
        sleep 0.1
    done
    find "$group" -depth -type d -exec rmdir {} + 2> /dev/null
}

install python3 curl openssl sqlite3 nginx promtool systemd-analyze
groups=$(findmnt -n -t cgroup2 -o TARGET | head -n 1)
group=$groups$(sed -n 's/^0:://p' /proc/self/cgroup)/sunreg-install.$$
if [ "$(id -u)" != 0 ] || [ -z "$groups" ] || [ ! -x /lib/systemd/systemd ] || ! unshare --mount --net --pid --uts --ipc --cgroup --fork true 2> "$room/said" || ! mkdir "$group" 2> "$room/said"; then
    echo "$0: not root, or without namespaces, cgroups of version 2 or systemd: nothing can be typed" >&2
    exit 2
fi
mkdir -p "$room.copy/out" "$room.copy/crates/office_tests/src"
cp -r "$here/../deploy" "$here/../docs" "$room.copy"
mkdir "$room.copy/tests"
cp -r "$here/deploy" "$room.copy/tests"
cp "$here/../crates/office_tests/src/status.rt" "$room.copy/crates/office_tests/src"
is_built=no
if [ -x "$program" ]; then
    is_built=yes
    cp "$program" "$room.copy/out/sunreg"
else
    echo "$0: $program is not built: tests/deploy/office.py stands in for it"
    printf '#!/bin/sh\nexec /usr/bin/python3 -B /usr/local/src/sunreg/tests/deploy/office.py "$@"\n' > "$room.copy/out/sunreg"
fi
chmod 755 "$room.copy/out/sunreg"
lacks=
has nginx || lacks="$lacks nginx"
has promtool && has prometheus-server || lacks="$lacks prometheus"
sh -c 'echo $$ > "$0/cgroup.procs" && exec "$@"' "$group" \
    unshare --mount --net --pid --uts --ipc --cgroup --fork --kill-child --mount-proc "$here/install.sh" --within "$room" "$is_built" "$lacks" &
disown
until [ -e "$room.copy/ended" ] || ! kill -0 $! 2> /dev/null; do sleep 0.5; done
exit "$(cat "$room.copy/ended" 2> /dev/null || echo 2)"
