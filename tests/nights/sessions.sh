#!/bin/sh
# People at terminals of a machine, root and anna, who may use sudo. Both type, and leave by `exit`, so that their shells and
# pagers write their histories.
set -u

# What is typed, a line a second.
type_lines() {
    sleep 3
    for line; do
        printf '%s\n' "$line"
        sleep 1
    done
    sleep 2
}

root_types() {
    type_lines 'aide-compare status' 'less /etc/hosts' /local q 'vi /etc/hosts' :q! python3 '1 + 1' 'exit()' \
        'crontab -l' 'su - anna' id exit exit
}

# The second line is her password.
anna_types() {
    type_lines 'sudo less /etc/hosts' secret /local q 'sudo -i' id exit 'less /etc/hosts' /local q 'python3' '1 + 1' 'exit()' exit
}

at_terminal() {
    TERM=xterm ssh -tt -q -i /root/.ssh/id_ed25519 -o StrictHostKeyChecking=no -o UserKnownHostsFile=/dev/null "$1@127.0.0.1"
}

root_types | at_terminal root
anna_types | at_terminal anna
# systemd takes what a user has in /run away ten seconds after the last of his sessions.
sleep 20
