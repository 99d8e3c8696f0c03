"""The package for systems of rpm, as rpm installs it into a root of its own and removes it."""
from __future__ import annotations

import os

from tests.packaging.installation import InstallTest, files, texts, tree

UNITS = "usr/lib/systemd/system/"
# What differs from what packaging/install installs below another prefix.
OWN = {UNITS + "aide-compare-database.service"}
NOT = {"lib/aide-compare/installed"}


def try_life(trial: InstallTest, package: str) -> None:
    trial.needs_root()
    trial.needs("rpmbuild", "rpm")
    root = trial.path("rpm-root")
    os.makedirs(root)

    def rpm(*words: str) -> str:
        done = trial.run_words(["rpm", "--root", root, "--define", "_dbpath /var/lib/rpm", *words])
        trial.assertEqual(done.status, 0, ("rpm " + words[0], done))
        return done.output_text

    rpm("--initdb")
    rpm("--install", "--nodeps", "--noscripts", package)
    found = {name: data for name, data in tree(root).items() if not name.startswith("var/")}
    wanted = {"usr/" + name for name in set(files(tree(trial.first()))) - NOT} | OWN
    wanted = {name + ".gz" if name.startswith("usr/share/man/") else name for name in wanted}
    wanted = {name for name in wanted if "__pycache__" not in name}
    differing = set(files(found)) ^ wanted
    trial.assertEqual(differing, set(), "rpm installs what packaging/install installs")
    units = {name: text for name, text in texts(found).items() if name.startswith(UNITS)}
    service = units.get(UNITS + "aide-compare.service", "")
    for unit in ("", "-mail", "-failed"):
        text = units.get(UNITS + "aide-compare%s.service" % unit, "")
        trial.assertIn("\nUser=root\n", text, unit)
        trial.assertNotIn("_aide", text, unit)
    for word in ("Wants", "After"):
        trial.assertIn(f"\n{word}=aide-compare-database.service\n", service, "AIDE runs before")
    trial.assertNotIn("=dailyaidecheck", "".join(units.values()), "no unit waits for Debian's")
    rpm("--verify", "--nodeps", "aide-compare")
    rpm("--erase", "--noscripts", "aide-compare")
    left = [name for name in files(tree(root)) if not name.startswith("var/")]
    trial.assertFalse(left, ("rpm removes all of it", left[:9]))
