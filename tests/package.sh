#!/bin/sh
# package.sh [PROGRAM]: builds the Debian package of PROGRAM by deploy/debian/build, and tests it.
# PROGRAM is out/sunreg by default, which `./sunreg-build` makes.
# - its bytes, which are the same each time, its files, its fields, and what lintian reports
# - the completions for bash, zsh and fish, which must offer each command and option of the manual
#   page
# - as root, in a mount namespace over a temporary /etc, /usr, /var and /run: dpkg installs,
#   upgrades, removes and purges the package. Nothing of this machine changes. A script that records
#   its arguments replaces systemctl
# - as root, the files of the container's image: the program runs in that folder by chroot
#
# As root the script installs missing tools by apt (not with PEERS_INSTALL=no). It names tools that
# it can't install, and skips their checks. It takes a minute, and ends with 'N passed, M failed',
# and with ', K skipped' if checks were skipped. CHECKS is the number of all checks. Change it where
# you add a check, or a command to the program.
set -u
here=$(dirname "$(readlink -f "$0")")
PATH=$PATH:/usr/sbin:/sbin
LC_ALL=C.UTF-8
export LC_ALL PATH
passed=0
failed=0
CHECKS=149

# same WHAT GOT WANTED: compares a result with the expected one, and counts it
same() {
    if [ "$2" = "$3" ]; then
        passed=$((passed + 1))
    else
        failed=$((failed + 1))
        echo "$1: '$2', and not '$3'"
    fi
}

# ---- within the namespace

# over FOLDER: mounts a temporary folder over one
over() {
    mkdir -p "$room/over$1/new" "$room/over$1/work"
    mount -t overlay overlay -o "lowerdir=$1,upperdir=$room/over$1/new,workdir=$room/over$1/work" "$1"
}

# package WORDS..: runs dpkg, and prints its status and the calls of systemctl
package() {
    : > "$room/calls"
    dpkg --no-triggers --force-unsafe-io "$@" > "$room/dpkg" 2>&1 < /dev/null
    echo "$? $(paste -s -d , "$room/calls")"
}

# state: prints the state of the package and its version
state() {
    dpkg-query -W -f '${db:Status-Abbrev}${Version}' sunreg 2> "$room/said"
}

# account: prints the user of the service without its number, and its group
account() {
    getent passwd sunreg | cut -d : -f 1,6,7
    getent group sunreg | cut -d : -f 1
}

# installing: installs, upgrades, removes and purges the package
installing() {
    mount --make-rprivate /
    mount -t tmpfs -o mode=755 scratch "$room/over" || exit 2
    for it in /etc /usr /var; do
        over $it || { echo "package.sh: $it can't be laid over" >&2; exit 2; }
    done
    mount -t tmpfs -o mode=755 scratch /run
    mkdir -p /run/systemd/system "$room/bin"
    # (as on a machine without sunreg)
    ! getent passwd sunreg > "$room/said" || userdel sunreg
    rm -rf /var/lib/sunreg /etc/default/sunreg /usr/local/bin/sunreg
    printf '#!/bin/sh\necho "$*" >> %s\n[ "$1" != try-restart ] || exit 1\n' "$room/calls" > "$room/bin/systemctl"
    chmod 755 "$room/bin/systemctl"
    PATH=$room/bin:$PATH
    first=$room/sunreg_1.0_amd64.deb
    second=$room/sunreg_1.0+next_amd64.deb
    user='sunreg:/var/lib/sunreg:/usr/sbin/nologin
sunreg'

    same 'install: it starts nothing' "$(package -i "$first")" '0 daemon-reload'
    same 'install: the state' "$(state)" 'ii 1.0'
    same 'install: the user' "$(account)" "$user"
    same 'install: the data folder' "$(stat -c '%U %G %a' /var/lib/sunreg)" 'sunreg sunreg 750'
    same 'install: the program' "$(cd / && sunreg --version | head -n 1)" 'sunreg 1.0'
    same 'install: the user makes a database' "$(runuser -u sunreg -- sunreg create --db /var/lib/sunreg/office.db --zone UTC0; echo $?)" 0
    # (the verification must find the unit's program, and the page of `man`)
    systemd-analyze verify /usr/lib/systemd/system/sunreg.service /usr/lib/systemd/system/sunreg-backup.service /usr/lib/systemd/system/sunreg-backup.timer > "$room/said" 2>&1
    same 'install: the units' "$? $(grep sunreg "$room/said")" '0 '
    same 'install: the manual page' "$(man -w sunreg)" /usr/share/man/man1/sunreg.1.gz
    runuser -u sunreg -- mkdir -p /var/lib/sunreg/copies
    same 'install: the nightly copy' "$(cd / && runuser -u sunreg -- env DB=/var/lib/sunreg/office.db BACKUPS=/var/lib/sunreg/copies KEEP_DAYS=1 KEEP_MONTHS=1 /usr/lib/sunreg/backup 2>&1 | sed 's|/[0-9TZ-]*\.db|/COPY|')" \
        'sunreg-backup: /var/lib/sunreg/office.db is copied to /var/lib/sunreg/copies/COPY, audit fine: 0 meters, 0 entries, 0 intervals, 0 polls'
    data=$(cd /var/lib/sunreg && find . -type f -exec sha256sum {} + | sort)
    same 'install: the database and its copy are there' "$(echo "$data" | grep -c '\.db$')" 2

    # data: whether the files of meters are the same as before
    data() {
        [ "$(cd /var/lib/sunreg && find . -type f -exec sha256sum {} + | sort)" = "$data" ] && stat -c '%U %a' /var/lib/sunreg
    }

    sed -i 's/^DEVICES=.*/DEVICES=roof=192.0.2.8:502/' /etc/default/sunreg
    same 'again: a running service restarts, and a failed restart is no failure' "$(package -i "$first")" '0 daemon-reload,try-restart sunreg.service'
    same 'again: the settings stay' "$(grep '^DEVICES=' /etc/default/sunreg)" 'DEVICES=roof=192.0.2.8:502'
    same 'upgrade: a changed setting of both is a question, which --force-confold answers' "$(package --force-confold -i "$second")" '0 daemon-reload,try-restart sunreg.service'
    same 'upgrade: the state' "$(state)" 'ii 1.0+next'
    same 'upgrade: the settings stay' "$(grep '^DEVICES=' /etc/default/sunreg)" 'DEVICES=roof=192.0.2.8:502'
    same 'upgrade: the new settings are beside them' "$(grep '^EVERY=' /etc/default/sunreg.dpkg-dist)" EVERY=900
    same 'upgrade: the data' "$(data)" 'sunreg 750'
    same 'upgrade: the user' "$(account)" "$user"
    same 'remove: it stops' "$(package --remove sunreg)" '0 stop sunreg.service sunreg-backup.timer sunreg-backup.service,disable sunreg.service sunreg-backup.timer,daemon-reload'
    same 'remove: the state' "$(state)" 'rc 1.0+next'
    same 'remove: the program' "$(find /usr -name '*sunreg*' -not -path '/usr/local/src/*' 2> "$room/said")" ''
    same 'remove: the settings stay' "$(grep '^DEVICES=' /etc/default/sunreg)" 'DEVICES=roof=192.0.2.8:502'
    same 'remove: the data' "$(data)" 'sunreg 750'
    same 'purge' "$(package --purge sunreg)" '0 '
    same 'purge: what it says' "$(grep '^sunreg: ' "$room/dpkg")" 'sunreg: /var/lib/sunreg has files of meters, so this folder and the user sunreg stay.
sunreg: to delete both, type: rm -r /var/lib/sunreg && userdel sunreg'
    same 'purge: the settings are gone' "$(find /etc -name '*sunreg*')" ''
    same 'purge: the data' "$(data)" 'sunreg 750'
    same 'purge: the user' "$(account)" "$user"
    same 'install again: it keeps the data' "$(package -i "$first") $(data)" '0 daemon-reload sunreg 750'
    rm -r /var/lib/sunreg/*
    rm -rf /run/systemd
    same 'purge: without systemd and without data' "$(package --purge sunreg)" '0 '
    same 'purge: the folder and the user are gone' "$(find /var/lib/sunreg 2> "$room/said")$(account)" ''

    # over an installation by hand, whose user and settings stay
    useradd --system --uid 777 --home-dir /var/lib/sunreg --shell /usr/sbin/nologin sunreg
    install -d -o sunreg -g sunreg -m 700 /var/lib/sunreg
    printf 'EVERY=900\n' > /etc/default/sunreg
    same 'by hand: install' "$(package --force-confold -i "$first")" '0 '
    same 'by hand: the user' "$(id -u sunreg) $(account)" "777 $user"
    same 'by hand: the folder' "$(stat -c '%u %a' /var/lib/sunreg)" '777 700'
    same 'by hand: the settings' "$(cat /etc/default/sunreg)" EVERY=900
    # a folder that can't be removed, as where a disk is mounted
    mount -t tmpfs -o uid=777 scratch /var/lib/sunreg
    same 'purge: a disk without data' "$(package --purge sunreg) $(account)" "0  $user"

    # the image has no other file than these
    chown 65532:65532 "$room/out/image/data"
    same 'the image: its program' "$(chroot --userspec=65532:65532 "$room/out/image" /sunreg --version | head -n 1)" 'sunreg 1.0'
    same 'the image: its user makes a database' "$(chroot --userspec=65532:65532 "$room/out/image" /sunreg create --db /data/office.db --zone UTC0; echo $?) $(stat -c %u "$room/out/image/data/office.db")" '0 65532'
    echo "$passed $failed" > "$room/counts"
}

if [ "${1:-}" = --within ]; then
    room=$2
    installing
    exit 0
fi

# ---- without

program=${1:-${SUNREG:-$here/../out/sunreg}}
[ -x "$program" ] || { echo "package.sh: $program is not built: run ./sunreg-build" >&2; exit 2; }
program=$(readlink -f "$program")
room=$(mktemp -d) || exit 2
trap 'rm -rf "$room"' EXIT
. "$here/peers/install.sh"
install dpkg-deb lintian dpkg-shlibdeps systemd-analyze zsh fish man root
chmod 755 "$room"
cd "$room" || exit 2
mkdir tree other home out over
ln -s /dev/shm shm

# ---- the package

# build FOLDER WORDS..: builds the package by the builder in a folder, and prints what the builder
# prints, and its status
build() {
    tree=$1
    shift
    "$tree/deploy/debian/build" "$@" 2>&1
    echo $?
}

# field NAME: prints a field of the package
field() {
    dpkg-deb --field $deb "$1"
}

mkdir tree/docs
cp -r "$here/../deploy" tree
cp "$here/../docs/sunreg.1" tree/docs
deb=sunreg_1.0_amd64.deb
same 'build' "$(build tree --output . "$program")" "dpkg-deb: building package 'sunreg' in './$deb'.
0"
# a second build: other folders, another file system, newer files, other permissions, another time
# zone, and the program of out/
cp "$program" out/sunreg
cp -r tree/deploy tree/docs out other
find other -type d -exec chmod 700 {} +
same 'build: again' "$(umask 077; export TZ=Asia/Tokyo TMPDIR="$room/shm"; build "$room/other")" "dpkg-deb: building package 'sunreg' in '$room/other/out/$deb'.
0"
same 'build: the same bytes' "$(sha256sum < "other/out/$deb")" "$(sha256sum < $deb)"
same 'build: the date of each file' "$(export SOURCE_DATE_EPOCH=4102444800; build tree --output late "$program" > said; dpkg-deb --contents late/$deb | awk '{ print $4 }' | sort -u)" 2100-01-01
same 'build: without a program' "$(build tree --output . none)" 'deploy/debian/build: none is not built: run ./sunreg-build
1'
printf '#!/bin/sh\nexit 3\n' > bad
chmod 755 bad
same 'build: a program that fails' "$(build tree --output bad.out ./bad) $(ls bad.out 2> said)" '3 '
same 'build: too many arguments' "$(build tree "$program" more)" 'deploy/debian/build: more is one argument too many
1'
same 'its fields' "$(for it in Package Version Architecture Priority; do field $it; done | paste -s -d ' ')" 'sunreg 1.0 amd64 optional'
if has dpkg-shlibdeps; then
    mkdir -p debian
    printf 'Source: sunreg\n\nPackage: sunreg\nArchitecture: amd64\n' > debian/control
    same 'the libraries that it needs' "$(field Depends | sed 's/, systemd .*//')" "$(dpkg-shlibdeps -O "$program" 2> said | sed -n 's/^shlibs:Depends=//p')"
fi
same 'one of these makes the user' "$(field Depends | grep -o 'systemd .*')" 'systemd | systemd-standalone-sysusers'
same 'its files' "$(dpkg-deb --contents $deb | awk '{ print $1, $2, $6 }')" 'drwxr-xr-x root/root ./
drwxr-xr-x root/root ./etc/
drwxr-xr-x root/root ./etc/default/
-rw-r--r-- root/root ./etc/default/sunreg
drwxr-xr-x root/root ./usr/
drwxr-xr-x root/root ./usr/bin/
-rwxr-xr-x root/root ./usr/bin/sunreg
drwxr-xr-x root/root ./usr/lib/
drwxr-xr-x root/root ./usr/lib/sunreg/
-rwxr-xr-x root/root ./usr/lib/sunreg/backup
drwxr-xr-x root/root ./usr/lib/systemd/
drwxr-xr-x root/root ./usr/lib/systemd/system/
-rw-r--r-- root/root ./usr/lib/systemd/system/sunreg-backup.service
-rw-r--r-- root/root ./usr/lib/systemd/system/sunreg-backup.timer
-rw-r--r-- root/root ./usr/lib/systemd/system/sunreg.service
drwxr-xr-x root/root ./usr/lib/sysusers.d/
-rw-r--r-- root/root ./usr/lib/sysusers.d/sunreg.conf
drwxr-xr-x root/root ./usr/share/
drwxr-xr-x root/root ./usr/share/bash-completion/
drwxr-xr-x root/root ./usr/share/bash-completion/completions/
-rw-r--r-- root/root ./usr/share/bash-completion/completions/sunreg
drwxr-xr-x root/root ./usr/share/doc/
drwxr-xr-x root/root ./usr/share/doc/sunreg/
-rw-r--r-- root/root ./usr/share/doc/sunreg/changelog.gz
-rw-r--r-- root/root ./usr/share/doc/sunreg/copyright
drwxr-xr-x root/root ./usr/share/doc/sunreg/examples/
-rw-r--r-- root/root ./usr/share/doc/sunreg/examples/alerts.yml
-rw-r--r-- root/root ./usr/share/doc/sunreg/examples/grafana.json
-rw-r--r-- root/root ./usr/share/doc/sunreg/examples/nginx.conf
-rw-r--r-- root/root ./usr/share/doc/sunreg/examples/prometheus.yml
drwxr-xr-x root/root ./usr/share/fish/
drwxr-xr-x root/root ./usr/share/fish/vendor_completions.d/
-rw-r--r-- root/root ./usr/share/fish/vendor_completions.d/sunreg.fish
drwxr-xr-x root/root ./usr/share/lintian/
drwxr-xr-x root/root ./usr/share/lintian/overrides/
-rw-r--r-- root/root ./usr/share/lintian/overrides/sunreg
drwxr-xr-x root/root ./usr/share/man/
drwxr-xr-x root/root ./usr/share/man/man1/
-rw-r--r-- root/root ./usr/share/man/man1/sunreg.1.gz
drwxr-xr-x root/root ./usr/share/zsh/
drwxr-xr-x root/root ./usr/share/zsh/vendor-completions/
-rw-r--r-- root/root ./usr/share/zsh/vendor-completions/_sunreg'
same 'the files for dpkg' "$(dpkg-deb --ctrl-tarfile $deb | tar -t | sort | paste -s -d ' ')" './ ./conffiles ./control ./md5sums ./postinst ./postrm ./prerm'
same 'its conffiles' "$(dpkg-deb --info $deb conffiles)" /etc/default/sunreg
dpkg-deb --raw-extract $deb unpacked
same 'the checksums' "$(cd unpacked && md5sum --quiet -c DEBIAN/md5sums 2>&1; wc -l < DEBIAN/md5sums)" "$(find unpacked/usr -type f | wc -l)"
for it in postinst prerm postrm; do
    same "$it: its syntax" "$(sh -n unpacked/DEBIAN/$it 2>&1)" ''
done
same 'the program' "$(sha256sum < unpacked/usr/bin/sunreg)" "$(sha256sum < "$program")"
same 'the version of the program and of the package' "$(unpacked/usr/bin/sunreg --version | head -n 1)" "sunreg $(field Version)"
same 'the settings' "$(diff "$here/../deploy/sunreg.env" unpacked/etc/default/sunreg)" ''
units=unpacked/usr/lib/systemd/system
same 'the units read the settings' "$(cd $units && grep '^EnvironmentFile=' *)" 'sunreg-backup.service:EnvironmentFile=/etc/default/sunreg
sunreg.service:EnvironmentFile=/etc/default/sunreg'
same 'the unit has another path' "$(diff "$here/../deploy/sunreg.service" $units/sunreg.service | sed -n 's/^\([<>] [^ ]*\).*/\1/p')" '< ExecStart=/usr/local/bin/sunreg
> ExecStart=/usr/bin/sunreg'
same 'the unit of the copies has another path' "$(diff "$here/../deploy/sunreg-backup.service" $units/sunreg-backup.service | grep '^[<>]')" '< ExecStart=/usr/local/bin/sunreg-backup
> ExecStart=/usr/lib/sunreg/backup'
same 'the user' "$(grep -v '^#' unpacked/usr/lib/sysusers.d/sunreg.conf)" 'u sunreg - "sunreg meter office" /var/lib/sunreg /usr/sbin/nologin'
same 'the manual page' "$(gzip -dc unpacked/usr/share/man/man1/sunreg.1.gz | sha256sum)" "$(sha256sum < "$here/../docs/sunreg.1")"
same 'the changelog' "$(gzip -dc unpacked/usr/share/doc/sunreg/changelog.gz | sha256sum)" "$(sha256sum < "$here/../deploy/debian/changelog")"
if has lintian; then
    same 'lintian' "$(lintian --allow-root --tag-display-limit 0 $deb 2>&1; echo $?)" 0
fi

# ---- the completions

sed 's/\\-/-/g' "$here/../docs/sunreg.1" > page
bash_file=unpacked/usr/share/bash-completion/completions/sunreg
zsh_file=unpacked/usr/share/zsh/vendor-completions/_sunreg
fish_file=unpacked/usr/share/fish/vendor_completions.d/sunreg.fish

# commands: prints the commands of the manual page
commands() {
    sed -n '/^\.SH COMMANDS/,/^\.SH NUMBERS/s/^\.SS //p' page
}

# options COMMAND: prints the options of a command in the manual page
options() {
    sed -n "/^\.SS $1\$/,/^\.S[SH]/s/^\.B \(-.*\)/\1/p" page | sed 's/ <.*//; s/, /\n/'
}

# one_line: prints the lines of the standard input in order, in one line
one_line() {
    sort | paste -s -d ' '
}

# by_bash WORDS..: prints what the completion of bash offers for the last of these words
by_bash() {
    bash -uc 'source "$1"
COMP_WORDS=(sunreg "${@:2}")
COMP_CWORD=$((${#COMP_WORDS[@]} - 1))
compopt() { echo "compopt $*"; }
_sunreg
((${#COMPREPLY[@]} == 0)) || printf "%s\n" "${COMPREPLY[@]}"' bash $bash_file "$@" 2>&1 | one_line
}

# by_zsh WORDS..: prints what the completion of zsh passes on for these words: the commands, or the
# options and values of the command
by_zsh() {
    zsh -f -c '_describe() { print -l -- ${(P)2} }
_arguments() { print -l -- $@ }
complete_it() { source $1 }
words=(sunreg "${@:2}")
CURRENT=$#words
complete_it $1' zsh ./$zsh_file "$@" 2>&1
}

# by_fish LINE: prints what the completion of fish offers at the end of a command line
by_fish() {
    (cd home && HOME=$room/home fish --no-config -c 'source $argv[1]; complete -C $argv[2]' "../$fish_file" "$1" 2>&1) | cut -f 1 | one_line
}

touch home/office.db
same 'the commands of the page' "$(commands | wc -l)" 18
same 'bash: the file is what the program prints' "$("$program" completions bash | sha256sum)" "$(sha256sum < $bash_file)"
same 'bash: its syntax' "$(bash -n $bash_file 2>&1)" ''
same 'bash: commands' "$(by_bash '')" "$({ commands; printf 'help\n--help\n--version\n'; } | one_line)"
same 'bash: re' "$(by_bash re)" 'recover replay report'
same 'bash: no command' "$(by_bash nothing)" ''
same 'bash: help re' "$(by_bash help re)" 'recover replay report'
for it in $(commands); do
    same "bash: $it" "$(by_bash "$it" -)" "$({ options "$it"; echo --help; } | one_line)"
done
same 'bash: run --c' "$(by_bash run --c)" --carry
same 'bash: run --carry' "$(by_bash run --carry '')" 'month year'
same 'bash: report --format' "$(by_bash report --format '')" 'csv json text'
same 'bash: report --db' "$(by_bash report --db '')" 'compopt -o default'
same 'bash: run --every' "$(by_bash run --every '')" ''
same 'bash: explain h' "$(by_bash explain h)" held
if has zsh; then
    same 'zsh: its syntax' "$(zsh -n $zsh_file 2>&1)" ''
    same 'zsh: its first line' "$(head -n 1 $zsh_file)" '#compdef sunreg'
    same 'zsh: commands' "$(by_zsh '' | sed 's/[:[].*//' | one_line)" "$({ commands; printf 'help\n--help\n--version\n'; } | one_line)"
    same 'zsh: a sentence' "$(by_zsh '' | grep '^report:')" "report:Prints a register's energy by day, month or year"
    for it in $(commands); do
        same "zsh: $it" "$(by_zsh "$it" '' | sed -n 's/^\**\(-[^[]*\)\[.*/\1/p' | one_line)" "$({ options "$it"; echo --help; } | one_line)"
    done
    same 'zsh: files, words and numbers' "$(by_zsh report '' | grep -e '--db' -e '--by' -e '--register')" '*--db[Office file; repeat for carried files, oldest first]:FILE:_files
--register[Register name in the office]:NAME: 
--by[Period of each row: day, month or year; default day]:PERIOD:(day month year)'
    same 'zsh: explain' "$(by_zsh explain '' | head -n 2)" '1:WHAT:(refused held lost malformed exception fault status)
2:NUMBER: '
fi
if has fish; then
    same 'fish: its syntax' "$(fish --no-config -n $fish_file 2>&1)" ''
    same 'fish: commands' "$(by_fish 'sunreg ')" "$({ commands; echo help; } | one_line)"
    same 'fish: re' "$(by_fish 'sunreg re')" 'recover replay report'
    same 'fish: help re' "$(by_fish 'sunreg help re')" 'recover replay report'
    for it in $(commands); do
        same "fish: $it" "$(by_fish "sunreg $it -")" "$({ options "$it"; echo --help; } | one_line)"
    done
    same 'fish: run --carry' "$(by_fish 'sunreg run --carry ')" 'month year'
    same 'fish: report --db' "$(by_fish 'sunreg report --db ')" office.db
    same 'fish: run --every' "$(by_fish 'sunreg run --every ')" ''
fi
# a page with the marks of roff and of both shells
cat > marks << 'END'
.SH COMMANDS
.SS a
Is [x] \e \(aqy\(aq.
.TP
.B \-\-o <FILE>
Has [z] \e.
.SH NUMBERS
END
same 'zsh: marks' "$("$here/../deploy/debian/completions" zsh < marks | grep -o -e "'a:.*" -e "'--o.*_files'")" "$(cat << 'END'
'a:Is [x] \ '\''y'\'''
'--o[Has \[z\] \]:FILE:_files'
END
)"
same 'fish: marks' "$("$here/../deploy/debian/completions" fish < marks | grep -o "'\(Is\|Has\).*")" "$(cat << 'END'
'Is [x] \\ '\''y'\'''
'Has [z] \\'
END
)"

# ---- the image, and dpkg

# (the commands of the page, for the program in out/)
sed -n '/^\$ \(mkdir\|cp\) .*out\/image/s/^\$ //p' "$here/../docs/PACKAGES.md" > typed
same 'the image: the commands of its page' "$(sh -e typed 2>&1; wc -l < typed)" 3
same 'the image: what its Containerfile copies' "$(sed -n 's/^COPY \(--chown=[0-9:]* \)*\([a-z0-9]*\) \/\2$/\2/p' "$here/../deploy/Containerfile" | one_line)" "$(ls out/image | one_line)"
if has root && unshare --mount true 2> said; then
    # a newer package, with another default
    sed -i '1s/.*/sunreg (1.0+next) bookworm; urgency=medium/' tree/deploy/debian/changelog
    sed -i 's/^EVERY=.*/EVERY=900/' tree/deploy/sunreg.env
    build tree --output . "$program" > said
    unshare --mount "$here/package.sh" --within "$room"
    read -r passed_within failed_within < counts || failed_within=1
    passed=$((passed + ${passed_within:-0}))
    failed=$((failed + failed_within))
elif has root; then
    lacks="$lacks namespaces"
fi

skipped=$((CHECKS - passed - failed))
if [ -n "$lacks" ]; then
    echo "$0: skipped $skipped checks, which need" $lacks
    echo "$passed passed, $failed failed, $skipped skipped"
else
    same 'the number of checks' "$((passed + failed))" "$CHECKS"
    echo "$passed passed, $failed failed"
fi
[ "$failed" = 0 ]
