"""Makes the Debian package: what the wheel contains, with units for systemd, man pages and
completion. package.sh calls this for `--deb`.

It needs `dpkg-deb`, and downloads nothing. The man pages are made by Debian's
python3-argparse-manpage; without it they are left out.
"""

import gzip
import os
import re
import shutil
import subprocess
from collections.abc import Iterator

TOP = os.path.normpath(os.path.join(os.path.dirname(os.path.abspath(__file__)), ".."))
FILES = os.path.join(TOP, "packaging")
CODE = "usr/lib/zanteyard"
BIN = f"{CODE}/zanteyard/program/bin"
SCRIPTS = ("postinst", "prerm", "postrm")
SERVICES = ("watch", "proxy", "serve")
MAINTAINER = "Zanteyard maintainers <maintainers@users.noreply.zanteyard.example>"
ABOUT = """audits transactions for serializability while they run
 Zanteyard tells you, while your database runs, whether its transactions were
 serializable. If not, it shows the transactions and reads responsible. A proxy
 audits any application that uses PostgreSQL; Python clients of PostgreSQL,
 MariaDB, Redis and SQLite have a collector; recorded histories can be checked.
"""


class CantPackError(Exception):
    """Why there is no package."""


def deb_of(
    staged: str, output: str, version: str, is_proved: bool, compression: str = "xz"
) -> str:
    """Builds the package of what was staged for the wheel, in place of an earlier one, and returns
    its path. Raises CantPackError."""
    architecture = said("dpkg", "--print-architecture")
    root = os.path.join(staged, "root")
    fill(root, staged, version)
    version += "" if is_proved else "~unproved"  # which is before the version without it
    write_control(root, version, architecture)
    path = os.path.join(output, f"zanteyard_{version}_{architecture}.deb")
    for name in os.listdir(output):
        if re.fullmatch(r"zanteyard_.*\.deb", name):
            os.remove(os.path.join(output, name))
    said("dpkg-deb", "--root-owner-group", f"-Z{compression}", "--build", root, path)
    return path


def said(*words: str) -> str:
    """A command's output. Raises CantPackError if it doesn't exist or fails."""
    try:
        ended = subprocess.run(words, stdout=subprocess.PIPE, stderr=subprocess.STDOUT, text=True)
    except OSError as error:
        raise CantPackError(f"{words[0]} doesn't start: {error.strerror}") from error
    if ended.returncode:
        raise CantPackError(f"{words[0]} has failed:\n{ended.stdout}")
    return ended.stdout.strip()


def fill(root: str, staged: str, version: str) -> None:
    """Puts everything that will be installed into the folder `root`."""
    os.makedirs(os.path.join(root, CODE), 0o755)
    shutil.copytree(f"{staged}/zanteyard", f"{root}/{CODE}/zanteyard")
    copy("zanteyard", f"{root}/usr/bin/zanteyard", 0o755)
    for name in sorted(os.listdir(f"{root}/{BIN}")):
        if os.access(f"{root}/{BIN}/{name}", os.X_OK):
            os.symlink(f"/{BIN}/{name}", f"{root}/usr/bin/{name}")
    for name in SERVICES:
        unit = f"zanteyard-{name}.service"
        copy(unit, f"{root}/usr/lib/systemd/system/{unit}")
        copy(f"{name}.toml", f"{root}/etc/zanteyard/{name}.toml")
    copy("completion", f"{root}/usr/share/bash-completion/completions/zanteyard")
    licences = [name for name in sorted(os.listdir(staged)) if name.startswith("LICENSE")]
    texts = [text_of(f"{staged}/{name}") for name in licences]
    write(f"{root}/usr/share/doc/zanteyard/copyright", "\n\n".join(texts))
    for name, page in man_pages(version):
        path = f"{root}/usr/share/man/man1/{name}.1.gz"
        write(path, gzip.compress(page.encode(), mtime=0))


def copy(name: str, path: str, mode: int = 0o644) -> None:
    os.makedirs(os.path.dirname(path), 0o755, exist_ok=True)
    os.chmod(shutil.copy(os.path.join(FILES, name), path), mode)


def write(path: str, content: str | bytes) -> None:
    os.makedirs(os.path.dirname(path), 0o755, exist_ok=True)
    with open(path, "wb") as file:
        file.write(content if isinstance(content, bytes) else content.encode())
    os.chmod(path, 0o644)


def text_of(path: str) -> str:
    with open(path, encoding="utf-8") as file:
        return file.read()


def write_control(root: str, version: str, architecture: str) -> None:
    """Writes the package's description, and copies its scripts."""
    sizes = (
        os.lstat(os.path.join(folder, name)).st_size
        for folder, _, names in os.walk(root) for name in names
    )
    needed = ["python3 (>= 3.11)", "adduser", *libraries(f"{root}/{BIN}")]
    fields = {
        "Package": "zanteyard",
        "Version": version,
        "Architecture": architecture,
        "Maintainer": MAINTAINER,
        "Installed-Size": str(sum(sizes) // 1024 + 1),
        "Depends": ", ".join(needed),
        "Recommends": "python3-psycopg2 | python3-psycopg",
        "Suggests": "python3-argcomplete, python3-redis, python3-pymysql",
        "Section": "database",
        "Priority": "optional",
        "Description": ABOUT.rstrip(),
    }
    lines = "".join(f"{name}: {value}\n" for name, value in fields.items())
    write(f"{root}/DEBIAN/control", lines)
    write(f"{root}/DEBIAN/conffiles", "".join(f"/etc/zanteyard/{it}.toml\n" for it in SERVICES))
    for name in SCRIPTS:
        copy(name, f"{root}/DEBIAN/{name}", 0o755)


def libraries(folder: str) -> Iterator[str]:
    """The C libraries that the programs in the folder were linked to, as Debian's packages."""
    programs = []
    for name in os.listdir(folder):
        with open(os.path.join(folder, name), "rb") as file:
            programs.append(file.read())
    linked = b"".join(whole for whole in programs if b"\0libc.so.6\0" in whole)
    if linked:  # else all are linked statically
        yield f"libc6 (>= 2.{max(map(int, re.findall(rb'GLIBC_2[.]([0-9]+)', linked)))})"
    if b"\0libgcc_s.so.1\0" in linked:
        yield "libgcc-s1"


def man_pages(version: str) -> Iterator[tuple[str, str]]:
    """The name and text of each man page; none without argparse-manpage."""
    try:
        from build_manpages.manpage import Manpage
    except ImportError:
        print("no man pages: python3-argparse-manpage isn't installed")
        return
    from zanteyard.cli._commands import COMMANDS, GROUPS, parser

    whole = parser()
    listed = "".join(
        f".SS {roff(title[0].upper() + title[1:])}\n"
        + "".join(f".TP\n.BR zanteyard\\-{roff(name)} (1)\n{roff(its.about)}\n"
                  for name, its in commands.items())
        for title, commands in GROUPS.items()
    )
    yield "zanteyard", (
        head("zanteyard", ABOUT.partition("\n")[0], version)
        + ".SH SYNOPSIS\n.B zanteyard\n[\\-\\-help] [\\-\\-version] \\fICOMMAND\\fR ...\n"
        f".SH DESCRIPTION\n{roff(whole.description or '')}\n.SH COMMANDS\n{listed}"
    )
    for name, its in COMMANDS.items():
        made = Manpage(whole.commands[name])
        # By itself it takes what is behind the usage's last colon, which may be that of HOST:PORT.
        made.synopsis = whole.commands[name].format_usage().partition(":")[2].split()
        page = str(made)
        body = page[page.index(".SH SYNOPSIS"):]
        example, _, rest = (whole.commands[name].epilog or "").partition("\n\n")
        example = roff(example.removeprefix("example:\n").strip())
        ends = " ".join(rest.removeprefix("Exit status: ").split())
        yield f"zanteyard-{name}", (
            head(f"zanteyard-{name}", its.about, version) + body
            + f".SH EXAMPLE\n.nf\n{example}\n.fi\n.SH EXIT STATUS\n{roff(ends)}\n"
            ".SH SEE ALSO\n.BR zanteyard (1)\n"
        )


def head(name: str, about: str, version: str) -> str:
    title = f'.TH {name.upper()} 1 "" "Zanteyard {version}"\n.nh\n.ad l\n'
    return f"{title}.SH NAME\n{roff(name)} \\- {roff(about)}\n"


def roff(text: str) -> str:
    """A text as a man page has it."""
    escaped = text.replace("\\", "\\e").replace("-", "\\-")
    return re.sub("^([.'])", r"\\&\1", escaped, flags=re.MULTILINE)
