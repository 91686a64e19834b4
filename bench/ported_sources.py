"""The sources of Debian's packages, by their names: they are fetched by apt, and unpacked.

apt is asked with lines of its own, which are those of the machine with sources in place of packages. Nothing of the
machine's configuration is changed. What is fetched is what the authors published, without the changes of Debian.
"""
import fnmatch
import lzma
import os
import re
import shlex
import subprocess
import tarfile
import tempfile
import zlib

TRIED_SECONDS = 300


class Absent(Exception):
    """Why a source cannot be had."""


def run(words, **more):
    """Runs a command to its end, and gives what it prints, or raises Absent with the first of its errors."""
    environment = {**os.environ, "LC_ALL": "C"}
    streams = {"stdin": subprocess.DEVNULL, "capture_output": True, "text": True, "errors": "replace"}
    try:
        made = subprocess.run(words, env=environment, timeout=TRIED_SECONDS, check=False, **streams, **more)
    except FileNotFoundError:
        raise Absent(f"there is no {words[0]}") from None
    except subprocess.TimeoutExpired:
        raise Absent(f"{words[0]} took over {TRIED_SECONDS} seconds") from None
    if made.returncode != 0:
        errors = [line for line in made.stderr.splitlines() if line.startswith("E: ")]
        raise Absent(f"{words[0]}: {(errors or made.stderr.splitlines() or ['status ' + str(made.returncode)])[0]}")
    return made.stdout


def of_sources(text, name):
    """A file of apt's lines with sources in place of binaries, in either of its two forms."""
    if name.endswith(".sources"):
        return re.sub(r"(?mi)^Types:.*$", "Types: deb-src", text)
    lines = [re.sub(r"^\s*deb(-src)?\s", "deb-src ", line) for line in text.splitlines()]
    return "".join(line + "\n" for line in dict.fromkeys(lines))


def machine_lines():
    """The files of the machine's apt with its lines: name and text."""
    told = run(["apt-config", "shell", "LIST", "Dir::Etc::sourcelist/f", "PARTS", "Dir::Etc::sourceparts/d"])
    places = dict(word.split("=", 1) for word in shlex.split(told))
    paths = [places.get("LIST", "")]
    if os.path.isdir(places.get("PARTS", "")):
        paths += [os.path.join(places["PARTS"], name) for name in sorted(os.listdir(places["PARTS"]))]
    for path in paths:
        if path.endswith((".list", ".sources")) and os.path.isfile(path):
            with open(path, encoding="utf-8", errors="replace") as file:
                yield os.path.basename(path), file.read()


class Sources:
    """The archives of packages in a folder, where they stay for another time."""

    def __init__(self, folder):
        self.folder = folder
        self.packages = os.path.join(folder, "packages")
        self.listed = False
        os.makedirs(self.packages, exist_ok=True)

    def options(self):
        """What has apt use a configuration in this folder."""
        places = {
            "Dir::Etc::SourceList": "/dev/null",
            "Dir::Etc::SourceParts": os.path.join(self.folder, "lines"),
            "Dir::State::Lists": os.path.join(self.folder, "lists"),
            "Dir::Cache": os.path.join(self.folder, "cache"),
        }
        return [word for name, place in places.items() for word in ("-o", f"{name}={place}")]

    def update(self):
        """Has apt read what there is, once. Lines that have no sources are passed over, where others have some."""
        if self.listed:
            return
        self.listed = True
        for name in ("lines", "lists/partial", "cache/archives/partial"):
            os.makedirs(os.path.join(self.folder, name), exist_ok=True)
        for name, text in machine_lines():
            with open(os.path.join(self.folder, "lines", name), "w", encoding="utf-8") as file:
                file.write(of_sources(text, name))
        try:
            run(["apt-get", *self.options(), "-q", "update"])
        except Absent:
            if not self.has_lists():
                raise

    def has_lists(self):
        """Whether apt has a list of sources."""
        return any("_Sources" in name for name in os.listdir(os.path.join(self.folder, "lists")))

    def versions(self, package):
        """The versions that apt lists, the newest first."""
        if not self.has_lists():
            raise Absent("apt could not fetch a list of sources")
        told = run(["apt-cache", *self.options(), "showsrc", "--only-source", package])
        found = list(dict.fromkeys(re.findall(r"(?m)^Version: (\S+)$", told)))
        if not found:
            raise Absent(f"apt has no source package {package}")
        newest_last = []
        for version in found:
            at = len(newest_last)
            while at > 0 and is_older(version, newest_last[at - 1]):
                at -= 1
            newest_last.insert(at, version)
        return newest_last[::-1]

    def kept(self, package):
        """The archive of a package that was fetched before, or None."""
        pattern = re.escape(package) + r"_.*\.orig\.tar\.(gz|bz2|xz)"
        names = [name for name in os.listdir(self.packages) if re.fullmatch(pattern, name)]
        return max((os.path.join(self.packages, name) for name in names), key=os.path.getmtime, default=None)

    def fetch(self, package, version):
        """Fetches the archive of a version. It comes to the others when it is whole."""
        words = ["source", "-q", "--download-only", "--tar-only", f"{package}={version}"]
        with tempfile.TemporaryDirectory(dir=self.folder) as place:
            run(["apt-get", *self.options(), *words], cwd=place)
            for name in os.listdir(place):
                os.replace(os.path.join(place, name), os.path.join(self.packages, name))

    def archive(self, package):
        """The archive of a package, which is fetched where it is not there: of the newest version that can be had."""
        if not self.kept(package):
            self.update()
            fault = None
            for version in self.versions(package):
                try:
                    self.fetch(package, version)
                    break
                except Absent as error:
                    fault = fault or error
            if not self.kept(package):
                raise fault or Absent(f"{package} has no archive of its authors")
        return self.kept(package)

    def unpack(self, package, wanted, target):
        """Puts the files of a package whose paths match one of the patterns into a folder, and gives the version."""
        path = self.archive(package)
        try:
            with tarfile.open(path) as archive:
                for member in archive:
                    name = member.name.removeprefix("./").partition("/")[2]
                    if member.isfile() and any(fnmatch.fnmatch(name, pattern) for pattern in wanted):
                        put(os.path.join(target, name), target, archive.extractfile(member).read())
        except (tarfile.TarError, EOFError, OSError, lzma.LZMAError, zlib.error) as error:
            raise Absent(f"{os.path.basename(path)}: {str(error).splitlines()[0].rstrip(':')}") from None
        return re.fullmatch(r".*?_(.*)\.orig\.tar\.\w+", os.path.basename(path))[1]


def is_older(version, other):
    """Whether a version of a package is before another, as dpkg has it."""
    return subprocess.run(["dpkg", "--compare-versions", version, "lt", other], check=False).returncode == 0


def put(path, folder, content):
    """Writes a file within a folder. A path that leads out of it is refused."""
    if not os.path.realpath(path).startswith(os.path.realpath(folder) + os.sep):
        raise Absent(f"a file of the archive lies elsewhere: {path}")
    os.makedirs(os.path.dirname(path), exist_ok=True)
    with open(path, "wb") as file:
        file.write(content)
