"""A package for Debian (deb(5)), of files in memory: an archive of ar with two of tar in it. The same files give the same octets."""
import email.utils
import gzip
import hashlib
import io
import os
import re
import tarfile

MAINTAINER = "Kelshubai maintainers <maintainers@users.noreply.kelshubai.example>"
COPYRIGHT = b"""Format: https://www.debian.org/doc/packaging-manuals/copyright-format/1.0/
Upstream-Name: wampd

Files: *
Copyright: 2026 the Kelshubai maintainers
License: Apache-2.0
 On Debian systems the text of the Apache License, version 2.0, is in
 /usr/share/common-licenses/Apache-2.0.
"""
# The program is packed as the toolchain linked it, so that its sha256 is the one that BUILT names.
OVERRIDES = b"wampd: unstripped-binary-or-object [usr/bin/wampd]\n"

ARCHITECTURES = {"x86_64": "amd64", "aarch64": "arm64"}
SCRIPTS = {
    "postinst": 'if [ "$1" = configure ] && [ -d /run/systemd/system ]; then systemctl daemon-reload || true; fi',
    "prerm": 'if [ "$1" = remove ] && [ -d /run/systemd/system ]; then systemctl disable --now wampd || true; fi',
    "postrm": 'if [ -d /run/systemd/system ]; then systemctl daemon-reload || true; fi',
}


def tar_of(files, when):
    """Files by their names, each with its mode, and the folders that they are in."""
    folders = {folder for name in files for folder in above(name)}
    out = io.BytesIO()
    with gzip.GzipFile("", "wb", 9, out, when) as packed, tarfile.open(fileobj=packed, mode="w", format=tarfile.GNU_FORMAT) as archive:
        for name in sorted({*folders, *files}):
            octets, mode = files.get(name, (b"", 0o755))
            entry = tarfile.TarInfo(f"./{name}")
            entry.type = tarfile.REGTYPE if name in files else tarfile.DIRTYPE
            entry.size, entry.mode, entry.mtime, entry.uname, entry.gname = len(octets), mode, when, "root", "root"
            archive.addfile(entry, io.BytesIO(octets))
    return out.getvalue()


def above(name):
    parts = name.split("/")[:-1]
    return ["/".join(parts[: i + 1]) for i in range(len(parts))]


def member(name, octets, when):
    """A file of an archive of ar."""
    head = f"{name:<16}{when:<12}{0:<6}{0:<6}{100644:<8}{len(octets):<10}`\n".encode()
    return head + octets + b"\n" * (len(octets) % 2)


def depends(program, libraries):
    """What has to be there: the C library, as new as the newest symbol that the program asks of it, and others that it loads."""
    newest = max(tuple(map(int, it.split(b"."))) for it in re.findall(rb"GLIBC_([0-9.]+)", program))
    names = [f"libc6 (>= {'.'.join(map(str, newest))})"]
    if any("libgcc_s" in os.path.basename(it) for it in libraries):
        names.append("libgcc-s1")
    return ", ".join(names)


def changelog(version, when):
    """The changelog of the package, packed. What changed for users stands in CHANGELOG.md."""
    date = email.utils.formatdate(when, usegmt=True).replace("GMT", "+0000")
    text = f"wampd ({version}) unstable; urgency=medium\n\n  * See CHANGELOG.md beside this file.\n\n -- {MAINTAINER}  {date}\n"
    return packed(text.encode())


def packed(octets):
    return gzip.compress(octets, 9, mtime=0)


def control(version, program, libraries, size):
    return f"""Package: wampd
Version: {version}
Architecture: {ARCHITECTURES[os.uname().machine]}
Maintainer: {MAINTAINER}
Installed-Size: {size}
Depends: {depends(program, libraries)}
Section: net
Priority: optional
Description: publish-subscribe broker for WAMP
 The broker of WAMP version 2 over RawSocket, in JSON and MessagePack: clients
 subscribe to topics, prefixes and wildcards, and publish events. Its rules of
 delivery are proved; README.md says how far.
""".encode()


def deb(files, settings, version, libraries, when):
    """The package of these files (a name without `/` in front: octets and mode); the settings among them are kept as the operator changed them."""
    size = sum(len(octets) for octets, _ in files.values()) // 1024 + 1
    sums = "".join(f"{hashlib.md5(octets).hexdigest()}  {name}\n" for name, (octets, _) in sorted(files.items()) if name not in settings)
    about = {
        "control": (control(version, files["usr/bin/wampd"][0], libraries, size), 0o644),
        "conffiles": ("".join(f"/{name}\n" for name in settings).encode(), 0o644),
        "md5sums": (sums.encode(), 0o644),
        **{name: (f"#!/bin/sh\nset -e\n{line}\n".encode(), 0o755) for name, line in SCRIPTS.items()},
    }
    return (
        b"!<arch>\n"
        + member("debian-binary", b"2.0\n", when)
        + member("control.tar.gz", tar_of(about, when), when)
        + member("data.tar.gz", tar_of(files, when), when)
    )
