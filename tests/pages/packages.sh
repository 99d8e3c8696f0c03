#!/bin/sh
# The recipes with Debian's own packages, on this machine as it is, in namespaces of its own: files that are written lie in
# an overlay, the network is a loopback of its own, and all processes end with this script. As root:
#     unshare --mount --net --pid --ipc --fork --kill-child --mount-proc sh tests/pages/packages.sh REPOSITORY PROGRAM FOLDER
# Prints a line `passed: ..` or `FAILED: ..` for each trial, and `skipped: ..` where a package is missing.
set -u
umask 022
cd /
here=$1 program=$2 folder=$3
state=/var/lib/aide-compare/daily/state
mails=/var/tmp/mails

has() { command -v "$1" > /dev/null; }

# check NAME COMMAND..: the command has to end with 0. What it prints is shown if it does not.
check() {
    name=$1
    shift
    if "$@" > "$folder/said" 2>&1; then
        echo "passed: $name"
    else
        echo "FAILED: $name"
        tail -n 15 "$folder/said" | sed 's/^/    /'
    fi
}

# ends_with STATUS COMMAND..
ends_with() {
    wanted=$1
    shift
    "$@"
    got=$?
    [ "$got" -eq "$wanted" ] || {
        echo "ended with $got, not $wanted"
        return 1
    }
}

# wait_for SECONDS COMMAND..
wait_for() {
    left=$1
    shift
    until "$@" > /dev/null 2>&1; do
        [ "$left" -gt 0 ] || return 1
        left=$((left - 1))
        sleep 1
    done
}

as_nobody() { setpriv --reuid 65534 --regid 65534 --clear-groups "$@"; }
is_newer() { [ -n "$(find "$1" -newer "$2")" ]; }
block() { sed -n "/^<!-- try: $1 -->\$/,/^\`\`\`\$/p" "$here/docs/GUIDE.md" | sed '/^<!--/d; /^```/d'; }

make_machine() {
    mount --make-rprivate / && mount -t tmpfs none "$folder" || return 1
    for each in etc var srv root usr run; do
        mkdir -p "$folder/up/$each" "$folder/work/$each"
        mount -t overlay none -o "lowerdir=/$each,upperdir=$folder/up/$each,workdir=$folder/work/$each" "/$each" || return 1
    done
    rm -rf /usr/local/bin/aide-compare* /var/lib/aide/* /srv/www /etc/cron.d/* /etc/crontab /etc/aide/aide.conf.d/*
    # Slurm asks for an address that is not 127.0.0.1 before it resolves any name.
    ip link set lo up && ip address add 192.0.2.1/32 dev lo
    mkdir -p /srv/www
    for each in kept 'removed by the intruder' 'changed é'; do
        echo 'as it was' > "/srv/www/$each"
    done
    # Debian's aide.conf as it is, with one rule in place of those of all packages.
    printf '#!/bin/sh\necho "/srv/www OwnerMode+sha256"\n' > /etc/aide/aide.conf.d/10_www
    chmod 755 /etc/aide/aide.conf.d/10_www
    for each in mail sendmail; do
        rm -f "/usr/sbin/$each" "/usr/bin/$each"
        printf '#!/bin/sh\ncat >> %s\n' "$mails" > "/usr/sbin/$each"
        chmod 755 "/usr/sbin/$each"
    done
    : > "$mails"
    chmod 666 "$mails"
}

intrude() {
    echo new > '/srv/www/added by the intruder ü'
    echo changed > '/srv/www/changed é'
    rm '/srv/www/removed by the intruder'
}

# What Debian's cron.daily does each night; its own mails are not what is tried.
nightly() {
    sh /etc/cron.daily/aide > "$folder/nightly" 2>&1
    : > "$mails"
    [ -s /var/lib/aide/aide.db.new ]
}

# cron itself starts the installed job, each minute in place of a time in the morning, and without the other daily jobs:
# `nightly` is Debian's own.
begin_cron() {
    block 'cron daily' > "$folder/cron"
    check 'the job of cron is copied' sh -e "$folder/cron"
    check "run-parts takes the job, after Debian's own" is_after_aide
    printf '* * * * * root /etc/cron.daily/zz-aide-compare\n' > /etc/cron.d/aide-compare
    cron -f &
}

is_after_aide() {
    run-parts --test /etc/cron.daily > "$folder/parts" || return 1
    aide=$(grep -nxE '/etc/cron.daily/(daily)?aide(check)?' "$folder/parts") &&
        ours=$(grep -nx /etc/cron.daily/zz-aide-compare "$folder/parts") &&
        [ "${aide%%:*}" -lt "${ours%%:*}" ]
}

cron_has_run() {
    touch "$folder/mark"
    sleep 1
    wait_for 75 is_newer "$state" "$folder/mark"
}

try_days() {
    check 'packaging/install' "$here/packaging/install" --program "$program"
    # The packages are here already, and no systemd runs.
    for each in apt systemctl; do
        printf '#!/bin/sh\nexit 0\n' > "/usr/local/sbin/$each"
        chmod 755 "/usr/local/sbin/$each"
    done
    block first > "$folder/first"
    check 'the first three commands' sh -e "$folder/first" < /dev/null
    check 'the baseline of aideinit' test -s /var/lib/aide/aide.db
    begin_cron
    check "day 1: Debian's nightly run" nightly
    check 'day 1: cron has run' cron_has_run
    check 'day 1: no mail' test ! -s "$mails"
    check 'day 1: the check is OK' ends_with 0 as_nobody /usr/local/lib/nagios/plugins/check_aide_compare
    intrude
    check "day 2: Debian's nightly run" nightly
    check 'day 2: cron has run' cron_has_run
    check 'day 2: a mail with the counts' wait_for 10 grep -q '^Subject: .*: 3 open .*of 3 changes$' "$mails"
    check 'day 2: the mail names the new file' grep -q '^ *added .*/srv/www/added by the intruder ü' "$mails"
    check 'day 2: the check is WARNING' ends_with 1 as_nobody /usr/local/lib/nagios/plugins/check_aide_compare
    check 'nobody else reads a database' ends_with 1 as_nobody cat /var/lib/aide/aide.db.new
}

nagios_says() { grep -q 'plugin_output=AIDE WARNING: 3 open .*of 3 changes: 1 added, 1 removed, 1 changed' /var/lib/nagios4/status.dat; }

try_nagios() {
    if ! has nagios4; then
        echo 'skipped: nagios4 is not installed'
        return
    fi
    cp /usr/local/share/doc/aide-compare/examples/nagios/aide-compare.cfg /etc/nagios4/conf.d/
    sed -i -e 's/^service_inter_check_delay_method=.*/service_inter_check_delay_method=n/' \
        -e 's/^service_interleave_factor=.*/service_interleave_factor=1/' \
        -e 's/^status_update_interval=.*/status_update_interval=1/' /etc/nagios4/nagios.cfg
    sed -i 's|^status_file=.*|status_file=/var/lib/nagios4/status.dat|' /etc/nagios4/nagios.cfg
    mkdir -p /var/lib/nagios4/rw /run/nagios4 && chown -R nagios:nagios /var/lib/nagios4 /run/nagios4
    check 'nagios4 -v' nagios4 -v /etc/nagios4/nagios.cfg
    nagios4 /etc/nagios4/nagios.cfg > "$folder/nagios" 2>&1 &
    check 'Nagios itself runs the check as its own user' wait_for 90 nagios_says
}

# Real ssh to this machine, by the line of authorized_keys, with the forced command.
try_ssh() {
    if ! [ -x /usr/sbin/sshd ]; then
        echo 'skipped: openssh-server is not installed'
        return 1
    fi
    mkdir -p /run/sshd /root/.ssh
    chmod 700 /root/.ssh
    rm -f /root/.ssh/* /etc/ssh/sshd_config.d/*
    ssh-keygen -q -t ed25519 -N '' -f /root/.ssh/id_ed25519
    [ -e /etc/ssh/ssh_host_ed25519_key ] || ssh-keygen -q -t ed25519 -N '' -f /etc/ssh/ssh_host_ed25519_key
    sed -e '/^#/d' -e 's/192\.0\.2\.10/127.0.0.1/' -e "s|ssh-ed25519 .*|$(cat /root/.ssh/id_ed25519.pub)|" \
        /usr/local/share/doc/aide-compare/examples/fleet/authorized_keys > /root/.ssh/authorized_keys
    chmod 600 /root/.ssh/authorized_keys
    /usr/sbin/sshd -D -p 2222 -o ListenAddress=127.0.0.1 -o PermitRootLogin=forced-commands-only -o UsePAM=no \
        > "$folder/sshd" 2>&1 &
    printf 'Host www\n  HostName 127.0.0.1\n  Port 2222\n' > /root/.ssh/config
    printf 'www\n' > "$folder/www"
    wait_for 20 ssh-keyscan -p 2222 127.0.0.1
    ssh-keyscan -p 2222 127.0.0.1 > /root/.ssh/known_hosts 2> /dev/null
    check 'the first fetch by ssh finds no baseline' ends_with 18 aide-compare hosts compare "$folder/www"
    check 'it has fetched aide.db.new' cmp /var/lib/aide/aide.db.new /var/lib/aide-compare/hosts/www/aide.db.new
    ssh -n -o BatchMode=yes www 'id; cat /etc/shadow' > "$folder/forced" 2> /dev/null
    check 'the key reads nothing else' cmp /var/lib/aide/aide.db.new "$folder/forced"
    cp /var/lib/aide/aide.db /var/lib/aide-compare/hosts/www/aide.db
    mkdir -p /etc/aide-compare /var/log/aide-compare
    printf 'www\n' > /etc/aide-compare/hosts
    check 'aide-compare hosts compare by ssh' ends_with 7 aide-compare hosts compare /etc/aide-compare/hosts
    aide-compare hosts compare --quiet /etc/aide-compare/hosts > "$folder/lines"
    check 'the line of a host' grep -q '^www 7 1 added, 1 removed, 1 changed: 3 open ' "$folder/lines"
}

try_ansible() {
    if ! has ansible-playbook; then
        echo 'skipped: ansible-core is not installed'
        return
    fi
    printf '[watched]\nwww ansible_host=127.0.0.1 ansible_port=2222\n[collector]\nhere\n' > "$folder/inventory"
    printf '[all:vars]\nansible_connection=local\ncollector_address=127.0.0.1\n' >> "$folder/inventory"
    rm -rf /var/lib/aide-compare/hosts/www
    playbook=/usr/local/share/doc/aide-compare/examples/fleet/playbook.yaml
    sed -i 's/^COMMAND=.*/COMMAND=check/' /etc/default/aide
    check 'the playbook' ansible-playbook -i "$folder/inventory" "$playbook"
    check 'the playbook sets the nightly run' grep -qx 'COMMAND=update' /etc/default/aide
    check 'the playbook adds the key' grep -q "^restrict,from=\"127.0.0.1\",command=.*$(cut -d ' ' -f 2 /root/.ssh/aide-compare.pub)" \
        /root/.ssh/authorized_keys
    check 'the playbook keeps the key of the host' grep -qF "www $(cut -d ' ' -f 1,2 /etc/ssh/ssh_host_ed25519_key.pub)" \
        /etc/aide-compare/known_hosts
    check 'the playbook makes the first baseline' cmp /var/lib/aide/aide.db.new /var/lib/aide-compare/hosts/www/aide.db
    check 'the playbook writes the hosts' grep -qx www /etc/aide-compare/hosts
    check 'the playbook a second time' sh -c "ansible-playbook -i '$folder/inventory' '$playbook' | grep -c 'changed=0' | grep -qx 2"
    sed -i 's/^[0-9]* [0-9]* \* \* \*/* * * * */' /etc/cron.d/aide-compare-fleet
    rm -f /var/lib/aide-compare/states/www
    check "the playbook's cron job runs" wait_for 75 test -s /var/lib/aide-compare/states/www
    check "the playbook's cron job compares" grep -q '"status": 0,' /var/lib/aide-compare/states/www
}

if ! make_machine > "$folder.log" 2>&1; then
    echo 'skipped: this machine has no overlay for files of its own'
    cat "$folder.log"
    exit 0
fi
try_days
try_nagios
if try_ssh; then
    try_ansible
fi
