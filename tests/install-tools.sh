#!/bin/sh
# install-tools.sh [--long | --lacking] [NAME..]: installs the missing tools of the tests. Without a
# name it installs the tools of the checks that the gate runs; `--long` adds those of the long
# checks. `--lacking NAME..` prints the tools that are missing, and installs nothing.
#
# This script is the only place that names Debian packages. As root it installs by apt-get, without
# a question (not with PEERS_INSTALL=no). It names the tools that are still missing, and always
# exits with 0: a check whose tool is missing is reported as skipped. Other scripts source this file
# for `has`, `lacking` and `install`; they set `here` to the folder tests/ and `room` to a temporary
# folder.

# python_of_pymodbus: prints the Python that has pymodbus: apt's is that of /usr/bin
python_of_pymodbus() {
    for it in python3 /usr/bin/python3; do
        "$it" -B "$here/peers/pymodbus_peer.py" version > "$room/said" 2>&1 && echo "$it" && break
    done
}

# python_of_prometheus: prints the Python that has the parser of Prometheus's text
python_of_prometheus() {
    for it in python3 /usr/bin/python3; do
        "$it" -B -c 'import prometheus_client.parser' > "$room/said" 2>&1 && echo "$it" && break
    done
}

# python_with MODULES: prints the Python that has these modules, such as Debian's
python_with() {
    for it in python3 /usr/bin/python3; do
        "$it" -B -c "import $1" > "$room/said" 2>&1 && echo "$it" && break
    done
}

# postgres_folder: prints the folder of PostgreSQL's own programs, as apt installs them
postgres_folder() {
    for it in /usr/lib/postgresql/*/bin; do
        [ -x "$it/initdb" ] && echo "$it" && break
    done
}

# library_of_faketime: prints the library that sets a process's clock
library_of_faketime() {
    for it in /usr/lib/*/faketime/libfaketime.so.1 /usr/lib/faketime/libfaketime.so.1; do
        [ -e "$it" ] && echo "$it" && break
    done
}

# browser: prints the program that the tests of the page drive, as tests/browser.py looks for it
browser() {
    for it in ${CHROMIUM:-} chromium chromium-browser google-chrome; do
        command -v "$it" && break
    done
}

# flags WORD: prints the compiler's flags for libmodbus
flags() {
    pkg-config "$1" libmodbus 2> "$room/flags" || { [ "$1" = --libs ] && echo -lmodbus || echo -I/usr/include/modbus; }
}

# has NAME: whether a tool is installed
has() {
    case $1 in
        libmodbus) printf '#include <modbus.h>\n' | cc -E $(flags --cflags) - > "$room/said" 2>&1 ;;
        pymodbus) [ -n "$(python_of_pymodbus)" ] ;;
        prometheus) [ -n "$(python_of_prometheus)" ] ;;
        jinja2) [ -n "$(python_with 'jinja2, yaml')" ] ;;
        paho) [ -n "$(python_with paho.mqtt.client)" ] ;;
        mosquitto) command -v mosquitto > "$room/said" || [ -x /usr/sbin/mosquitto ] ;;
        postgresql) [ -n "$(postgres_folder)" ] ;;
        prometheus-server) command -v prometheus > "$room/said" ;;
        faketime) [ -n "$(library_of_faketime)" ] ;;
        chromium) [ -n "$(browser)" ] ;;
        tzdata) [ -e /usr/share/zoneinfo/Europe/Zurich ] ;;
        root) [ "$(id -u)" = 0 ] ;;
        *) command -v "$1" > "$room/said" ;;
    esac
}

# lacking NAME..: prints the missing tools
lacking() {
    for it in "$@"; do
        has "$it" || echo "$it"
    done
}

# packages NAME..: prints the Debian packages of these tools
packages() {
    for it in "$@"; do
        case $it in
            cc) echo gcc libc6-dev ;;
            libmodbus) echo libmodbus-dev pkg-config ;;
            pymodbus) echo python3-pymodbus python3-serial-asyncio ;;
            prometheus) echo python3-prometheus-client ;;
            jinja2) echo python3-yaml python3-jinja2 ;;
            paho) echo python3-paho-mqtt ;;
            mosquitto_sub) echo mosquitto-clients ;;
            promtool | prometheus-server) echo prometheus ;;
            amtool) echo prometheus-alertmanager ;;
            nginx) echo nginx-light ;;
            chromium) echo chromium fonts-dejavu-core ;;
            systemd-analyze) echo systemd ;;
            man) echo man-db ;;
            setpriv) echo util-linux ;;
            dpkg-deb) echo dpkg ;;
            dpkg-shlibdeps) echo dpkg-dev ;;
            rt | root) ;;
            *) echo "$it" ;;
        esac
    done
}

# apt WORDS..: runs apt-get without a question, after any other one; its output is in $room/apt
apt() {
    DEBIAN_FRONTEND=noninteractive timeout 600 \
        apt-get -q -o Acquire::Retries=1 -o DPkg::Lock::Timeout=120 "$@" > "$room/apt" 2>&1 < /dev/null
}

# installed NAME..: installs the missing ones of these tools if it can, and sets `lacks` to those
# that are still missing
installed() {
    lacks=$(lacking "$@")
    if [ -n "$lacks" ] && [ "$(id -u)" = 0 ] && [ "${PEERS_INSTALL:-yes}" != no ] && has apt-get; then
        echo "$0: installs" $lacks
        apt update
        for it in $(packages $lacks); do
            apt install -y --no-install-recommends "$it"
        done
        lacks=$(lacking "$@")
    fi
}

# install NAME..: the same for a script that needs these tools: it names the missing ones, and ends
# the script if nothing can be tested
install() {
    installed "$@"
    for it in $lacks; do
        case $it in
            python3 | curl | sqlite3) echo "$0: $it is not here, and nothing can be tried without it" >&2; exit 2 ;;
            *) echo "$0: $it is not here: not tried" ;;
        esac
    done
}

# The part for a script that is run, and not sourced.
case ${0##*/} in
    install-tools.sh) ;;
    *) return 0 ;;
esac
here=$(dirname "$(readlink -f "$0")")
room=$(mktemp -d) || exit 0
trap 'rm -rf "$room"' EXIT
of_gate='python3 curl sqlite3 faketime chromium tzdata setpriv man groff jinja2 paho mosquitto mosquitto_sub openssl'
of_long='cc libmodbus pymodbus mbpoll prometheus nginx promtool amtool systemd-analyze postgresql clickhouse-server clickhouse-client dpkg-deb dpkg-shlibdeps lintian zsh fish'
case ${1:-} in
    --lacking)
        shift
        lacking "$@"
        exit 0 ;;
    --long) set -- $of_gate $of_long ;;
    '') set -- $of_gate ;;
esac
installed "$@"
[ -z "$lacks" ] || echo "$0: not here:" $lacks
exit 0
