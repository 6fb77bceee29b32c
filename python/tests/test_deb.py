"""The Debian package: its content, fields, units, settings and man pages. Its programs are others
here, since the real ones take long to pack."""
import argparse
import configparser
import glob
import gzip
import importlib.util
import os
import re
import shlex
import shutil
import subprocess
import sys
import tempfile
import tomllib
import unittest
from unittest import mock

import make_deb
import make_wheel
from zanteyard.cli._commands import COMMANDS, parser

PROGRAM = "/bin/true"


def said(*words, **more):
    ended = subprocess.run(words, capture_output=True, text=True, **more)
    return ended.returncode, ended.stdout, ended.stderr


@unittest.skipUnless(shutil.which("dpkg-deb"), "dpkg-deb isn't installed (no Debian package was made)")
class Deb(unittest.TestCase):
    @classmethod
    def setUpClass(cls):
        cls.folder = tempfile.mkdtemp()
        cls.addClassCleanup(shutil.rmtree, cls.folder, ignore_errors=True)
        made, staged, cls.output = (os.path.join(cls.folder, it) for it in ("made", "staged", "out"))
        for each in (made, staged, cls.output):
            os.mkdir(each)
        programs = [shutil.copy(PROGRAM, os.path.join(made, it)) for it in make_wheel.PROGRAMS]
        proxy = shutil.copy(PROGRAM, os.path.join(made, "zanteyard-proxy"))
        with open(f"{cls.output}/zanteyard_0.0.1_amd64.deb", "wb"):
            pass
        with mock.patch.object(make_wheel, "PROXY", proxy):
            make_wheel.stage(staged, programs, False)
        cls.deb = make_deb.deb_of(staged, cls.output, make_wheel.VERSION, False, "none")
        cls.root = os.path.join(cls.folder, "root")
        subprocess.run(["dpkg-deb", "-x", cls.deb, cls.root], check=True)

    def text_of(self, path):
        with open(os.path.join(self.root, path), encoding="utf-8") as file:
            return file.read()

    def units(self):
        return sorted(glob.glob(f"{self.root}/usr/lib/systemd/system/*.service"))

    def test_its_fields(self):
        self.assertEqual(os.listdir(self.output), [os.path.basename(self.deb)])  # the old one is gone
        fields = said("dpkg-deb", "-f", self.deb)[1]
        for line in (
            f"Version: {make_wheel.VERSION}~unproved", "Recommends: python3-psycopg2 | python3-psycopg",
        ):
            self.assertIn(f"\n{line}\n", fields)
        self.assertRegex(fields, r"\nDepends: python3 \(>= 3\.11\), adduser, libc6 \(>= 2\.[0-9]+\)")
        with open(os.path.join(make_deb.TOP, "python/pyproject.toml"), "rb") as file:
            self.assertEqual(tomllib.load(file)["project"]["requires-python"], ">=3.11")
        for name in make_deb.SCRIPTS:
            path = os.path.join(make_deb.FILES, name)
            self.assertEqual(said("sh", "-n", path), (0, "", ""))

    def test_its_content(self):
        listed = said("dpkg-deb", "-c", self.deb)[1].splitlines()
        modes = {line.split()[5].lstrip("."): line.split()[0] for line in listed}
        self.assertEqual({line.split()[1] for line in listed}, {"root/root"})
        for name in ("cobra_audit", "cobra_check", "zanteyard-proxy"):
            to = os.readlink(f"{self.root}/usr/bin/{name}")
            self.assertTrue(os.access(self.root + to, os.X_OK), to)
        self.assertEqual(modes["/usr/bin/zanteyard"], "-rwxr-xr-x")
        self.assertEqual(modes["/usr/share/doc/zanteyard/copyright"], "-rw-r--r--")
        self.assertIn("GNU C library", self.text_of("usr/share/doc/zanteyard/copyright"))
        self.assertIn("/usr/lib/zanteyard/zanteyard/docs/WATCH.md", modes)
        self.assertEqual([path for path in modes if "__pycache__" in path or "/tests" in path], [])
        conffiles = said("dpkg-deb", "-I", self.deb, "conffiles")[1].split()
        self.assertEqual(sorted(conffiles), sorted(it for it in modes if re.match("/etc/.*[^/]$", it)))

    def test_its_command(self):
        """It starts the package that was installed, and takes nothing else from the environment."""
        command = f"{self.root}/usr/bin/zanteyard"
        environment = {it: value for it, value in os.environ.items() if not it.startswith(("COBRA", "ZANTEY"))}
        if sys.version_info[:2] != (3, 11) and not os.path.exists("/usr/bin/python3"):
            self.skipTest("Debian's Python is missing")
        status, out, err = said(command, "--version", cwd="/", env=environment)
        self.assertEqual((status, out.splitlines()[0]), (0, f"zanteyard {make_wheel.VERSION}"), err)
        self.assertIn(f"auditor {self.root}/usr/lib/zanteyard/zanteyard/program/bin/cobra_audit: NOT PROVED", out)
        self.assertIn(f"proxy {self.root}/usr/lib/zanteyard/", out)

    def test_its_services(self):
        """Each runs a command with settings that the command knows, as its own user."""
        self.assertEqual(len(self.units()), len(make_deb.SERVICES))
        for path in self.units():
            unit = configparser.ConfigParser(strict=False, interpolation=None)
            unit.optionxform = str
            unit.read(path)
            service = unit["Service"]
            called, name, option, settings = shlex.split(service["ExecStart"])
            with self.subTest(name=name):
                self.assertTrue(os.access(self.root + called, os.X_OK))
                self.assertEqual((service["User"], service["NoNewPrivileges"], service["ProtectSystem"]),
                                 ("zanteyard", "yes", "strict"))
                self.assertEqual(service.get("RestartPreventExitStatus"), "1 2" if name == "serve" else None)
                self.assertEqual(service["StateDirectory"], f"zanteyard/{name}")
                if name == "watch":  # if it is killed, its proxy goes on, and the next one finds it
                    kept = [service.get(each) for each in ("KillMode", "OOMPolicy", "RuntimeDirectoryPreserve")]
                    self.assertEqual(kept, ["process", "continue", "restart"])
                page = unit["Unit"]["Documentation"].split("file://")[1]
                self.assertTrue(os.path.isfile(self.root + page), page)
                words = [name, option, self.root + settings]
                text = self.text_of(settings[1:])
                with open(f"{self.folder}/whole.toml", "w", encoding="utf-8") as file:
                    file.write(re.sub(r"^# (?=\w+ = )", "", text, flags=re.MULTILINE))
                self.assertGreater(len(tomllib.loads(text)[name]), 0)
                parser(name, words).parse_args(words)
                words[2] = f"{self.folder}/whole.toml"
                its = parser(name, words).parse_args(words)
                if name != "serve":
                    self.assertTrue(its.url)
                self.assertIn(f"zanteyard-{name}", text)

    @unittest.skipUnless(shutil.which("systemd-analyze"), "systemd isn't installed (no unit was verified)")
    def test_what_systemd_says_of_its_units(self):
        folder = os.path.join(self.folder, "units")
        os.mkdir(folder)
        for path in self.units():
            with open(path, encoding="utf-8") as file:
                text = file.read().replace("=/usr/bin/", f"={self.root}/usr/bin/")
            copy = os.path.join(folder, os.path.basename(path))
            with open(copy, "w", encoding="utf-8") as file:
                file.write(text)
            about = said("systemd-analyze", "verify", "--man=no", copy)[2]
            self.assertEqual([line for line in about.splitlines() if "zanteyard" in line], [])

    @unittest.skipUnless(
        importlib.util.find_spec("build_manpages") and shutil.which("groff"),
        "argparse-manpage or groff isn't installed (no man page was made)",
    )
    def test_its_man_pages(self):
        pages = {}
        for path in glob.glob(f"{self.root}/usr/share/man/man1/*.1.gz"):
            with gzip.open(path, "rb") as file:
                text = file.read()
            name = os.path.basename(path)[: -len(".1.gz")]
            with self.subTest(page=name):
                ended = subprocess.run(
                    ["groff", "-man", "-Tascii", "-P-cbou", "-ww", "-rLL=80n"], input=text, capture_output=True
                )
                self.assertEqual((ended.returncode, ended.stderr), (0, b""))
                pages[name] = " ".join(ended.stdout.decode().split())
        self.assertEqual({*pages}, {"zanteyard", *(f"zanteyard-{it}" for it in COMMANDS)})
        for name, its in COMMANDS.items():
            self.assertIn(f"zanteyard-{name}(1) {its.about}", pages["zanteyard"])
            self.assertIn(f"zanteyard-{name} - {its.about}", pages[f"zanteyard-{name}"])
            self.assertIn(" ".join(its.example.split()), pages[f"zanteyard-{name}"])
            self.assertIn(f"SYNOPSIS zanteyard {name} [", pages[f"zanteyard-{name}"])
            options = parser(name).commands[name].options
            for option in options:
                if option.help != argparse.SUPPRESS and option.dest != "help":
                    for word in option.option_strings:
                        self.assertIn(word, pages[f"zanteyard-{name}"])

    @unittest.skipUnless(
        shutil.which("bash") and shutil.which("register-python-argcomplete"), "argcomplete isn't installed"
    )
    def test_its_completion(self):
        path = f"{self.root}/usr/share/bash-completion/completions/zanteyard"
        status, out, err = said("bash", "-c", f". '{path}' && complete -p zanteyard && echo left: $_register")
        self.assertEqual((status, err), (0, ""))
        self.assertTrue(out.startswith("complete ") and out.endswith("zanteyard\nleft:\n"), out)

    def test_the_container_takes_it(self):
        with open(os.path.join(make_deb.FILES, "Containerfile"), encoding="utf-8") as file:
            lines = file.read().splitlines()
        self.assertLessEqual(len(lines), 10)
        (pattern,) = re.findall(r"^COPY (\S+) ", "\n".join(lines), re.MULTILINE)
        self.assertEqual(glob.glob(os.path.join(self.output, pattern)), [self.deb])


if __name__ == "__main__":
    unittest.main()
