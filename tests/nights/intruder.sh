#!/bin/sh
# What an intruder leaves on a machine on one night, one mark for each way to stay; `undo` takes all of it back.
# Each line that `plant` prints is a path that a mail has to name.
set -u
keep=/var/tmp/.kept

plant() {
    mkdir -p "$keep"
    # Rights.
    cp -p /usr/bin/id /var/cache/.x && chmod 4755 /var/cache/.x && echo /var/cache/.x
    cp -p /usr/bin/id /opt/helper && setcap cap_setuid+ep /opt/helper && echo /opt/helper
    setfacl -m u:anna:rwx /etc/pam.d && echo /etc/pam.d
    chmod g+w /usr/bin && chgrp anna /usr/bin && echo /usr/bin
    chown anna /etc/default && echo /etc/default
    chmod 1777 /usr/sbin && echo /usr/sbin
    # What logs in, starts or loads code.
    cp -p /etc/passwd "$keep/passwd" && echo 'x::0:0::/root:/bin/sh' >> /etc/passwd && echo /etc/passwd
    mkdir -p /root/.ssh && echo 'ssh-ed25519 AAAA x' > /root/.ssh/authorized_keys2 && echo /root/.ssh/authorized_keys2
    echo '* * * * * root true' > /etc/cron.d/zz && echo /etc/cron.d/zz
    printf '[Service]\nExecStart=/bin/true\n' > /etc/systemd/system/zz.service && echo /etc/systemd/system/zz.service
    mkdir -p /run/systemd/system/ssh.service.d && printf '[Service]\n' > /run/systemd/system/ssh.service.d/z.conf &&
        echo /run/systemd/system/ssh.service.d/z.conf
    mkdir -p /run/udev/rules.d && echo '#' > /run/udev/rules.d/00.rules && echo /run/udev/rules.d/00.rules
    mkdir -p /run/tmpfiles.d && echo '#' > /run/tmpfiles.d/zz.conf && echo /run/tmpfiles.d/zz.conf
    mkdir -p /run/modprobe.d && echo '#' > /run/modprobe.d/zz.conf && echo /run/modprobe.d/zz.conf
    mkdir -p /run/polkit-1/rules.d && echo '//' > /run/polkit-1/rules.d/00.rules && echo /run/polkit-1/rules.d/00.rules
    echo 'x ALL=(ALL) NOPASSWD: ALL' > /etc/sudoers.d/zz && echo /etc/sudoers.d/zz
    echo '# zz' >> /etc/aide-compare/without && echo /etc/aide-compare/without
    # Programs.
    cp -p /usr/bin/who "$keep/who" && printf x >> /usr/bin/who && touch -r "$keep/who" /usr/bin/who && echo /usr/bin/who
    cp -p /usr/bin/id /usr/local/bin/ls && echo /usr/local/bin/ls
    cp -p /usr/bin/id /var/log/sysstat.bin && echo /var/log/sysstat.bin
    # What is started, obeyed or given away where daily jobs write.
    echo x > /var/cache/apt/archives/zz_1.0_amd64.deb && echo /var/cache/apt/archives/zz_1.0_amd64.deb
    echo '|true' > /var/cache/man/.forward && chmod 600 /var/cache/man/.forward && echo /var/cache/man/.forward
    echo '|true' > /var/backups/.forward && chmod 600 /var/backups/.forward && echo /var/backups/.forward
    mknod -m 0 /var/cache/zero c 1 5 && chown anna /var/cache/zero && echo /var/cache/zero
    chmod 777 /var/cache/debconf && echo /var/cache/debconf
    sed -i '$a report_ignore_changed_attrs=p+u+g+s+sha256' /etc/aide/aide.conf && echo /etc/aide/aide.conf
}

undo() {
    rm -f /var/cache/.x /opt/helper /root/.ssh/authorized_keys2 /etc/cron.d/zz /etc/systemd/system/zz.service
    rm -rf /run/systemd/system/ssh.service.d /run/udev/rules.d/00.rules /run/tmpfiles.d/zz.conf
    rm -rf /run/modprobe.d /run/polkit-1/rules.d/00.rules /etc/sudoers.d/zz /usr/local/bin/ls /var/log/sysstat.bin
    rmdir /run/polkit-1/rules.d /run/polkit-1 /run/tmpfiles.d /run/udev/rules.d 2> /dev/null
    rm -f /var/cache/apt/archives/zz_1.0_amd64.deb /var/cache/man/.forward /var/backups/.forward /var/cache/zero
    chmod 755 /var/cache/debconf
    sed -i '/^report_ignore_changed_attrs=p+u/d' /etc/aide/aide.conf
    setfacl -b /etc/pam.d
    chmod 755 /usr/bin /usr/sbin && chgrp root /usr/bin && chown root /etc/default
    cat "$keep/passwd" > /etc/passwd
    cp -p "$keep/who" /usr/bin/who
    sed -i '/^# zz$/d' /etc/aide-compare/without
    rm -rf "$keep"
}

"$1"
