#!/usr/bin/env python3
"""Shows one night twice: what AIDE reports, and what aide-compare mails about the same databases.

Boots a Debian 13 as a container, with AIDE's rules as shipped but one digest in place of eleven,
and runs `aide-compare setup`. After two quiet nights that are accepted comes one with an upgrade to
signed packages, on which an intruder leaves six marks. Prints both texts as README has them. It
needs root, a network, mmdebstrap and systemd-nspawn, and takes some ten minutes.
"""
from __future__ import annotations

import sys
from pathlib import Path

TOP = Path(__file__).resolve().parent.parent
sys.path.insert(0, str(TOP))

from tests.nights.machine import RELEASES, Machine, make_base  # noqa: E402
from tests.nights.nights import EVENTS, Nights  # noqa: E402
from tools.lib.arguments import parser_of  # noqa: E402

# What the intruder leaves, one mark a line: a command, and the path that a mail has to name.
MARKS = """\
cp -p /usr/bin/id /usr/local/bin/.helper; chmod 4755 /usr/local/bin/.helper # /usr/local/bin/.helper
echo 'x::0:0::/root:/bin/sh' >> /etc/passwd # /etc/passwd
mkdir -p /root/.ssh; echo 'ssh-ed25519 AAAA x' >> /root/.ssh/authorized_keys # authorized_keys
echo '* * * * * root /usr/local/bin/.helper' > /etc/cron.d/sysstat2 # /etc/cron.d/sysstat2
echo 'anna ALL=(ALL) NOPASSWD: ALL' > /etc/sudoers.d/99-anna # /etc/sudoers.d/99-anna
printf x >> /usr/bin/who # /usr/bin/who
"""
# How many lines of AIDE's report are printed.
SHOWN = 34


def main() -> int:
    parser = parser_of("bench.night", __doc__)
    parser.add_argument("--work", type=Path, required=True, help="a directory for the machine")
    parser.add_argument("--package", type=Path, required=True, help="the package of aide-compare")
    arguments = parser.parse_args()
    release, base = RELEASES["13"], arguments.work / "base-13"
    make_base(base, release)
    machine = Machine(arguments.work / "night", "night")
    results = arguments.work / "results"
    nights = Nights(machine, release, results, with_intruder=False, is_stock=False)
    machine.make(base, "exim4")
    try:
        nights.prepare(arguments.package)
        machine.boot()
        nights.set_up()
        for number, event in enumerate(("first", "idle")):
            nights.night(number, event)
        nights.hand_over("upgrade")
        nights.shell("upgrade", EVENTS["upgrade"])
        machine.shell(MARKS)
        nights.check()
        mails = nights.mail(is_wanted=True)
        report = machine.inside("aide", "--config=/etc/aide/aide.conf", "--compare").stdout
    finally:
        machine.power_off()
    (arguments.work / "aide.txt").write_bytes(report)
    (arguments.work / "mail.txt").write_text("\n".join(mails))
    lines = report.decode(errors="replace").splitlines()
    print(f"AIDE: {len(lines)} lines, {len(report)} bytes\n")
    print("\n".join(lines[:SHOWN]))
    subject, _, body = "\n".join(mails).partition("\n\n")
    print(f"\naide-compare: {len(body.splitlines())} lines, {len(body)} bytes\n")
    print(f"Subject: {subject}\n\n{body}")
    marks = [line.rpartition(" # ")[2] for line in MARKS.splitlines()]
    print("Not named:", [mark for mark in marks if mark not in body])
    return 0


if __name__ == "__main__":
    sys.exit(main())
