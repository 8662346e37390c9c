#!/usr/bin/env python3
"""Tries what release.sh makes: for each processor the archive and the Debian packages, in roots that have next to nothing.

    python3 tests/release.py PROGRAM

The archive for x86-64 is laid out in an empty root, of which the C library, its loader and a shell with four small tools are all, and in one like
Alpine's, of busybox and musl. The examples of README.md run there, and so does the first C example of docs/LIBRARY.md, which is compiled outside by
what pkg-config says. The one for ARM64 is laid out too, and qemu-aarch64 runs the same. The packages are installed, used and removed by dpkg, and
lintian has no error of them but those of the missing licence. With NLOG_ROOT=FOLDER that is done in a copy of this root, as debootstrap makes one.
What RELEASE and the packages say of the C library, of the kit and of the files is compared with the files themselves; and each script that needs the
toolchain says in one line where that is missing.

Wants rt, cc, ar, objcopy, objdump and pkg-config; the same for aarch64-linux-gnu, and qemu-aarch64; busybox, musl-gcc; dpkg, dpkg-deb and lintian; and
root, or the right to make a namespace of users. What is missing is said.
"""
import gzip
import hashlib
import os
import re
import shutil
import sys
import tarfile

from examples import read_page
from log_format import HEADER, command_hash
from trials import BUILD_SECONDS, main, read, run, write

TOP = os.path.dirname(os.path.dirname(os.path.abspath(__file__)))
# What the examples call beside the program. Each wants the C library alone.
TOOLS = ["sh", "cat", "head", "paste", "uniq"]
EXAMPLE = re.search(r"(?s)```c\n(.*?)```", read(f"{TOP}/docs/LIBRARY.md").decode())[1].encode()
SYSTEMS = {"x86_64": "x86-64", "aarch64": "ARM64"}
COMPILERS = {"x86_64": "cc", "aarch64": "aarch64-linux-gnu-gcc", "musl": "musl-gcc"}
# Where the C library for ARM64 lies, which Debian has for its compiler.
ARM_ROOT = "/usr/aarch64-linux-gnu"
MUSL = "/lib/ld-musl-x86_64.so.1"
MAINTAINER = {"DEBFULLNAME": "Nobody", "DEBEMAIL": "nobody@debian.org"}
# What lintian says of a package without a licence.
LICENCE = "copyright-without-copyright-notice"
# Where chroot may be, also for who isn't root.
PLACES = f"{os.environ.get('PATH', os.defpath)}:/usr/sbin:/sbin"
# What the example leaves as its log: one entry, whose times are those of the clock.
WRITTEN = re.compile(rb"%b\d+\t\d+\t\d{19}\ta\.txt\t%x\n" % (re.escape(HEADER), command_hash(b"cat in.txt > a.txt")))
MISSING = re.compile(r"[\w/.-]+: (FAILED: )?rt isn't there: the command of the Rattle toolchain, [^\n]*README\.md[^\n]*\n")


def libraries_of(path):
    """The files that the loader takes for a program, by where it looks for them."""
    return re.findall(r"(?m)(/\S+) \(0x", run(["ldd", path])[1].decode())


def others_of(path):
    """Those of them that are not the C library."""
    return [it for it in libraries_of(path) if os.path.basename(it) not in ("libc.so.6", "ld-linux-x86-64.so.2")]


def needs(path):
    """The newest GLIBC that a file names, from its table of names."""
    found = [tuple(map(int, it.split(b"."))) for it in re.findall(rb"\0GLIBC_([0-9.]+)(?=\0)", read(path))]
    return ".".join(map(str, max(found)))


def is_static(path):
    """Whether a program asks for no loader and no library."""
    said = run(["objdump", "-p", path])[1].decode()
    return said != "" and "INTERP" not in said and "NEEDED" not in said


class Root:
    """An empty root with the C library and the tools."""

    def __init__(self, folder):
        self.folder = folder
        self.fill()
        os.makedirs(f"{folder}/tmp")

    def fill(self):
        for it in TOOLS:
            self.put(os.path.realpath(shutil.which(it)), f"/bin/{it}")

    def put(self, path, name):
        """Puts a program there, and the C library, which is all that it wants."""
        for it, to in [(path, name), *((it, it) for it in libraries_of(path))]:
            os.makedirs(os.path.dirname(f"{self.folder}{to}"), exist_ok=True)
            shutil.copy(it, f"{self.folder}{to}")

    def run(self, command, path="/bin"):
        """Runs a command of the shell in /tmp of the root, where nothing else is seen."""
        words = ["chroot", self.folder, "/bin/sh", "-c", f"cd /tmp && PATH={path} && {{ {command}\n}}"]
        if os.geteuid() != 0:
            words = ["unshare", "--user", "--map-root-user", *words]
        status, out, err = run(words, env={"PATH": PLACES})
        return status, out.decode(errors="replace"), err.decode(errors="replace")

    def files(self):
        """The names of all that is there, and of each file its bytes."""
        found = {}
        for folder, folders, files in os.walk(self.folder):
            found.update((os.path.relpath(f"{folder}/{it}", self.folder), None) for it in folders)
            for it in files:
                path = f"{folder}/{it}"
                found[os.path.relpath(path, self.folder)] = os.readlink(path) if os.path.islink(path) else read(path)
        return found


def busybox():
    """A busybox that is one static file, or None."""
    found = shutil.which("busybox")
    return found if found and is_static(found) else None


BUSYBOX = busybox()


class Alpine(Root):
    """A root like Alpine's: busybox, which is one static file, and musl for what is linked with it."""

    def fill(self):
        os.makedirs(f"{self.folder}/bin")
        os.makedirs(f"{self.folder}/lib")
        shutil.copy(BUSYBOX, f"{self.folder}/bin/busybox")
        for it in TOOLS:
            os.symlink("busybox", f"{self.folder}/bin/{it}")
        shutil.copy(os.path.realpath(MUSL), f"{self.folder}{MUSL}")


class Here:
    """This system, with the programs for ARM64 run by qemu-aarch64: in the place of a root, in a folder of its own."""

    def __init__(self, folder, programs):
        self.folder, self.programs = folder, programs
        os.makedirs(f"{folder}/tmp")

    def run(self, command, path="/bin"):
        env = {"PATH": f"{self.programs}:{PLACES}", "QEMU_LD_PREFIX": ARM_ROOT}
        status, out, err = run(["/bin/sh", "-c", f"cd {self.folder}/tmp && {{ {command}\n}}"], env=env)
        return status, out.decode(errors="replace"), err.decode(errors="replace")


def try_examples(trials, root, bin_folder):
    """The examples of README.md, in order, in the root."""
    files, examples = read_page("README.md")
    for name, text in files.items():
        write(f"{root.folder}/tmp/{name}", text)
    trials.check("README.md has examples", len(examples) > 2)
    for example in examples:
        why = example.differs(*root.run(example.command, f"{bin_folder}:/bin"))
        trials.check(f"in the root: {example.command}", not why, why or "")
    shutil.rmtree(f"{root.folder}/tmp")
    os.makedirs(f"{root.folder}/tmp")


def try_library(trials, tools, prefix, root, inside, room, variables=()):
    """Compiles the first example of docs/LIBRARY.md by the flags of the library's own file, outside the root, and runs it in the root."""
    if shutil.which("pkg-config") is None:
        trials.skip("the library", "pkg-config isn't there")
        return
    env = {**os.environ, "PKG_CONFIG_LIBDIR": f"{prefix}/lib/pkgconfig", "ROOM": room}
    write(f"{room}/example.c", EXAMPLE)
    flags = run(["sh", "-c", f"eval \"set -- $(pkg-config {' '.join(variables)} --cflags --libs nlog)\"; printf '%s\\n' \"$@\""], env=env)
    words = flags[1].decode().split("\n")[:-1]
    plain = [it[:2] + os.path.normpath(it[2:]) if it[:2] in ("-I", "-L") else it for it in words]
    trials.want("the flags of the library", (flags[0], plain), (0, [f"-I{prefix}/include", f"-L{prefix}/lib", "-lnlog"]))
    libraries = f"{prefix}/lib/musl" if tools == "musl" else f"{prefix}/lib"
    archive = [f"-I{prefix}/include", f"{libraries}/libnlog.a"]
    ways = {"shared": [*words[:-2], f"-L{libraries}", "-lnlog"], "archive": archive, "archive, in a static program": ["-static", *archive]}
    for what, more in ways.items():
        made = run([COMPILERS[tools], "-std=c11", "-Wall", "-Wextra", "-Werror", f"{room}/example.c", *more, "-o", f"{room}/by-{what}"])
        trials.check(f"the example is compiled by the {what} library", made[0] == 0, made[2].decode(errors="replace"))
        if made[0]:
            continue
        shutil.copy(f"{room}/by-{what}", f"{root.folder}/tmp/example")
        for it in (".ninja_log", "a.txt"):
            if os.path.exists(f"{root.folder}/tmp/{it}"):
                os.remove(f"{root.folder}/tmp/{it}")
        runner = f"qemu-aarch64 -E LD_LIBRARY_PATH='{inside}/lib' " if tools == "aarch64" else f"LD_LIBRARY_PATH={inside}/{os.path.relpath(libraries, prefix)} "
        write(f"{root.folder}/tmp/in.txt", b"hello\n")
        ran = root.run(f"{runner}./example")
        trials.want(f"the example by the {what} library, in the root", (ran, read(f"{root.folder}/tmp/a.txt")), ((0, "made a.txt\n", ""), b"hello\n"))
        log = read(f"{root.folder}/tmp/.ninja_log") or b""
        trials.check(f"its log by the {what} library", WRITTEN.fullmatch(log), repr(log))
    shutil.rmtree(f"{root.folder}/tmp")
    os.makedirs(f"{root.folder}/tmp")


def try_text(trials, target, prefix, doc, version):
    """What RELEASE says, beside the files that lie there. A package has a part of these."""
    text = (read(f"{doc}/RELEASE") or b"").decode()
    trials.want("its first line", text.split("\n")[0], f"nlog {version} for Linux on {SYSTEMS[target]}")
    shared = os.path.basename(os.path.realpath(f"{prefix}/lib/libnlog.so"))
    said = re.search(r"lib/(\S+) is the library for C, .* needs the GNU C library (\S+) or later,", text)
    trials.want("the C library that it names", said and said.groups(), (shared, needs(f"{prefix}/lib/{shared}")))
    trials.check("the program is static, as it says", is_static(f"{prefix}/bin/nlog") and "bin/nlog is one static file" in text)
    trials.check("the kit", f"\n    {run(['rt', 'version'])[1].decode().strip()}\n" in text)
    commit = run(["git", "-C", TOP, "rev-parse", "HEAD"])[1].decode().strip()
    trials.check("the commit", re.search(rf"(?m)^    {commit or 'not known'}(, changed)?$", text), text)
    trials.want("the processors of the verdicts", re.findall(r"(?m)^    logic=proved .* target=(\S+)-unknown-linux-gnu ", text), [target, target])
    headline = " ".join(re.findall(r"(?m)^> (.*)$", read(f"{TOP}/docs/PROMISES.md").decode()))
    trials.check("the headline", headline and headline in " ".join(text.split()))
    sums = {name: it for it, name in re.findall(r"(?m)^    ([0-9a-f]{64})  (\S+)$", text)}
    wanted = ["bin/nlog", "lib/libnlog.a", f"lib/{shared}", "include/nlog.h"]
    trials.want("the checksums", sums, {it: hashlib.sha256(read(f"{prefix}/{it}") or b"").hexdigest() for it in wanted})
    return needs(f"{prefix}/lib/{shared}")


def try_archive(trials, target, archive, version, room):
    """The archive, laid out in roots at one place and outside of them at another, whose name has a space. Gives the C library that it names."""
    trials.about = f"the archive for {target}: "
    name = f"nlog-{version}-linux-{target}"
    with tarfile.open(archive) as it:
        members = it.getmembers()
        trials.check("all of it is in one folder", all(f"{m.name}/".startswith(f"{name}/") and (m.isfile() or m.isdir() or m.issym()) for m in members))
        trials.check("no link leads out of its folder", not any("/" in m.linkname for m in members))
        trials.check("all of it is root's, and nobody else may write it", all(m.uid == m.gid == 0 and (m.issym() or not m.mode & 0o022) for m in members))
    folder = f"{room}/a place"
    os.makedirs(folder)
    trials.want("it is laid out", run(["tar", "-xzf", archive, "-C", folder]), (0, b"", b""))
    prefix = f"{folder}/{name}"
    newest = try_text(trials, target, prefix, f"{prefix}/share/doc/nlog", version)
    for it, of in (("man/man1/nlog.1", "man/nlog.1"), ("man/man3/nlog.3", "man/nlog.3"), ("bash-completion/completions/nlog", "completions/nlog.bash"),
                   ("zsh/site-functions/_nlog", "completions/nlog.zsh"), ("fish/vendor_completions.d/nlog.fish", "completions/nlog.fish"),
                   ("doc/nlog/README.md", "README.md"), ("doc/nlog/docs/CLI.md", "docs/CLI.md")):
        trials.check(f"it has share/{it}", read(f"{prefix}/share/{it}") == read(f"{TOP}/{of}"))
    linked = run([COMPILERS[target], "-static", "-o", f"{room}/linked", f"{prefix}/lib/nlog/nlog.o"])
    trials.check("its object is linked once more", linked[0] == 0 and is_static(f"{room}/linked"), linked[2][-300:])
    if target == "aarch64":
        try_arm(trials, prefix, version, room)
        return newest
    for kind in (Root, Alpine):
        if kind is Alpine and not (os.path.exists(MUSL) and shutil.which("musl-gcc") and BUSYBOX):
            trials.skip("a root like Alpine's", "busybox, as one static file, or musl isn't there")
            continue
        trials.about = f"the archive, in a root by {kind.__name__}: "
        root = kind(f"{room}/{kind.__name__}")
        before = root.files()
        os.makedirs(f"{root.folder}/opt")
        trials.want("it is laid out", run(["tar", "-xzf", archive, "-C", f"{root.folder}/opt"]), (0, b"", b""))
        try_examples(trials, root, f"/opt/{name}/bin")
        try_library(trials, "x86_64" if kind is Root else "musl", prefix, root, f"/opt/{name}", room)
        shutil.rmtree(f"{root.folder}/opt/{name}")
        trials.check("without its folder the root is as it was", root.files() == {**before, "opt": None})
    return newest


def try_arm(trials, prefix, version, room):
    if shutil.which("qemu-aarch64") is None:
        trials.skip("that the archive for ARM64 runs", "qemu-aarch64 isn't there")
        return
    os.mkdir(f"{room}/by-qemu")
    write(f"{room}/by-qemu/nlog", f"#!/bin/sh\nexec qemu-aarch64 -0 nlog '{prefix}/bin/nlog' \"$@\"\n".encode())
    os.chmod(f"{room}/by-qemu/nlog", 0o755)
    here = Here(f"{room}/arm", f"{room}/by-qemu")
    trials.want("its program says its version", here.run("nlog --version"), (0, f"nlog {version}\n", ""))
    try_examples(trials, here, "")
    try_library(trials, "aarch64", prefix, here, prefix, room)


def try_packages(trials, to, versions, newest, room):
    """The packages, put into a root by dpkg, which refuses the library beside an older C library, and removed again."""
    trials.about = "the packages: "
    wanted = {"nlog": {}, "libnlog0": {"Depends": f"libc6 (>= {newest})"}, "libnlog-dev": {"Depends": f"libnlog0 (= {versions['libnlog-dev']})"}}
    packages = {}
    for machine in ("amd64", "arm64"):
        for name, more in wanted.items():
            packages[name, machine] = path = f"{to}/{name}_{versions[name]}_{machine}.deb"
            fields = dict(re.findall(r"(?m)^ ?([\w-]+): (.*)$", run(["dpkg-deb", "--field", path])[1].decode()))
            own = {"Package": name, "Version": versions[name], "Architecture": machine, "Depends": None, **more}
            trials.want(f"the fields of {name} for {machine}", {it: fields.get(it) for it in own}, own)
        if shutil.which("lintian"):
            said = run(["lintian", "--allow-root", *(it for (_, of), it in packages.items() if of == machine)])[1].decode()
            trials.want(f"lintian's errors for {machine}", [it for it in re.findall(r"(?m)^E: (.*)$", said) if not it.endswith(LICENCE)], [])
            trials.want(f"what lintian says of the missing licence for {machine}", len(re.findall(rf"(?m)^[EW]: .*: {LICENCE}$", said)), len(wanted))
        else:
            trials.skip("what lintian says", "it isn't there")
    for name in wanted:
        lists = [re.findall(r"(?m) \./(\S.*)$", run(["dpkg-deb", "-c", packages[name, it]])[1].decode()) for it in ("amd64", "arm64")]
        trials.want(f"the files of {name} for both processors", lists[0], lists[1])
    if shutil.which("dpkg") is None or os.geteuid() != 0:
        trials.skip("that dpkg installs and removes them", "dpkg isn't there, or it isn't run by root")
        return
    root = Root(f"{room}/package")
    before = root.files()
    own = [packages[it, "amd64"] for it in wanted]
    trials.check(f"dpkg refuses the library beside a C library older than {newest}", install(root, own[1], older(newest))[0] not in (0, None))
    run(["dpkg", f"--root={root.folder}", "--purge", "libnlog0"])
    trials.want("dpkg installs the program without any C library", install(root, own[0], None)[::2], (0, b""))
    try_examples(trials, root, "/usr/bin")
    trials.want("dpkg installs the library", install(root, own[1:], newest)[::2], (0, b""))
    prefix = f"{root.folder}/usr"
    for it, of in (("man1/nlog.1.gz", "man/nlog.1"), ("man3/nlog.3.gz", "man/nlog.3"), ("man3/nlog_load.3.gz", "man/nlog.3")):
        trials.check(f"it has {it}", gzip.decompress(read(f"{prefix}/share/man/{it}") or b"") == read(f"{TOP}/{of}"))
    try_library(trials, "x86_64", prefix, root, "/usr", room, [f"--define-variable=prefix={prefix}"])
    trials.want("dpkg removes them", run(["dpkg", f"--root={root.folder}", "--remove", *reversed(wanted)])[::2], (0, b""))
    shutil.rmtree(f"{root.folder}/var")
    trials.check("and the root is as it was", root.files() == before)
    try_debian(trials, own, room)


def try_debian(trials, packages, room):
    """The packages in a Debian of their own."""
    source = os.environ.get("NLOG_ROOT", "")
    if not os.path.isdir(f"{source}/var/lib/dpkg") or not source:
        trials.skip("a Debian of the packages", "NLOG_ROOT names no root that debootstrap made")
        return
    trials.about = "the packages, in a Debian: "
    folder = f"{room}/debian"
    trials.check("the root is copied", run(["cp", "-a", source, folder])[0] == 0)
    for it in packages:
        shutil.copy(it, f"{folder}/tmp")
    inside = ["chroot", folder, "/usr/bin/env", "-i", "PATH=/usr/sbin:/usr/bin:/sbin:/bin", "HOME=/tmp"]
    trials.want("dpkg installs them", run([*inside, "sh", "-c", "dpkg --install /tmp/*.deb"])[0], 0)
    root = Root.__new__(Root)
    root.folder = folder
    try_examples(trials, root, "/usr/bin")
    trials.want("dpkg has no complaint of their files", run([*inside, "dpkg", "--verify", "nlog", "libnlog0", "libnlog-dev"]), (0, b"", b""))
    trials.want("dpkg removes them", run([*inside, "dpkg", "--purge", "libnlog-dev", "libnlog0", "nlog"])[0], 0)
    trials.want("nothing of them is left", run([*inside, "find", "/usr", "/etc", "-name", "*nlog*", "-print"])[1], b"")


def older(version):
    first, second = version.split(".")[:2]
    return f"{first}.{int(second) - 1}"


def install(root, packages, library):
    """Installs packages in a root that has this C library for dpkg, or none."""
    folder = f"{root.folder}/var/lib/dpkg"
    for it in ("info", "updates", "triggers"):
        os.makedirs(f"{folder}/{it}", exist_ok=True)
    status = read(f"{folder}/status") or b""
    if library:
        fields = {"Package": "libc6", "Status": "install ok installed", "Maintainer": "nobody", "Architecture": "amd64", "Version": library}
        status = b"\n\n".join(it for it in status.split(b"\n\n") if it.strip() and b"Package: libc6\n" not in it + b"\n") + b"\n\n"
        status += "".join(f"{name}: {it}\n" for name, it in {**fields, "Description": "as it is"}.items()).encode() + b"\n"
        write(f"{folder}/info/libc6.list", b"/.\n")
    write(f"{folder}/status", status.lstrip(b"\n"))
    words = [packages] if isinstance(packages, str) else packages
    return run(["dpkg", f"--root={root.folder}", "--install", *words], env={**os.environ, "DEBIAN_FRONTEND": "noninteractive"})


def try_without_toolchain(trials, room):
    """Each script that needs the toolchain, where it is missing."""
    os.makedirs(f"{room}/bin")
    for it in os.environ.get("PATH", os.defpath).split(":"):
        for name in os.listdir(it) if os.path.isdir(it) else ():
            if name != "rt" and not os.path.lexists(f"{room}/bin/{name}"):
                os.symlink(f"{it}/{name}", f"{room}/bin/{name}")
    if not trials.check("a path without rt", shutil.which("rt", path=f"{room}/bin") is None):
        return
    env = {**os.environ, "PATH": f"{room}/bin"}
    for words in (["install.sh", f"{room}/none"], ["lib/archive.sh", f"{room}/none.a"], ["lib/program.sh", f"{room}/none.a"],
                  ["lib/proved.sh", "nlog", "x86_64"], ["try"], ["release.sh", f"{room}/none"], ["test.sh"]):
        status, out, err = run([f"{TOP}/{words[0]}", *words[1:]], env=env)
        said, last = (out.decode(), "0 passed, 1 failed\n") if words == ["test.sh"] else (err.decode(), "")
        trials.check(f"{words[0]} without rt says so in one line", status == 1 and MISSING.fullmatch(said.removesuffix(last)) and said.endswith(last), (status, said))
    trials.check("and nothing is made", not os.path.exists(f"{room}/none.a") and not os.path.exists(f"{room}/none/bin"))


def can_enter(trials, room):
    """Whether a root can be made and entered at all."""
    for it in TOOLS:
        if others_of(shutil.which(it)):
            trials.skip("all that runs in a root", f"{it} wants more than the C library: {others_of(shutil.which(it))}")
            return False
    os.makedirs(f"{room}/try")
    status, out, err = Root(f"{room}/try/root").run("echo in")
    if (status, out) != (0, "in\n"):
        trials.skip("all that runs in a root", f"it can't be entered: {err.strip()}")
        return False
    return True


def trial(trials, program, room):
    try_without_toolchain(trials, f"{room}/without")
    try_release(trials, program, room)


def try_release(trials, program, room):
    """What release.sh makes, in a root without tools."""
    for it in ("rt", "cc", "ar", "objcopy", "objdump", "chroot", "ldd", *TOOLS):
        if shutil.which(it, path=PLACES) is None:
            return trials.skip("the release", f"{it} isn't there")
    if not can_enter(trials, room):
        return None
    targets = ["x86_64", "aarch64"]
    if not all(shutil.which(f"aarch64-linux-gnu-{it}") for it in ("gcc", "ar", "objcopy")):
        trials.skip("the release for ARM64", "its compiler or its tools aren't there")
        targets.pop()
    to = f"{room}/to"
    words = [it for target in targets for it in ("--target", target)]
    status, out, err = run([f"{TOP}/release.sh", *words, to], env={**os.environ, **MAINTAINER}, timeout=BUILD_SECONDS)
    if not trials.check("release.sh ends well", status == 0, (out + err)[-600:].decode(errors="replace")):
        return None
    version = run([program, "--version"])[1].decode().split()[1]
    number = int(re.search(r"(?m)^#define NLOG_VERSION ([0-9]+)$", read(f"{TOP}/include/nlog.h").decode())[1])
    library = f"{number // 1_000_000}.{number // 1000 % 1000}.{number % 1000}"
    versions = {"nlog": version, "libnlog0": library, "libnlog-dev": library}
    machines = {"x86_64": "amd64", "aarch64": "arm64"}
    has_packages = shutil.which("dpkg-deb") is not None
    made = [f"nlog-{version}-linux-{it}.tar.gz" for it in targets]
    made += [f"{name}_{versions[name]}_{machines[it]}.deb" for it in targets for name in versions] * has_packages
    trials.want("what it makes", sorted(os.listdir(to)), sorted([*made, "SHA256SUMS"]))
    sums = dict(reversed(it.split("  ")) for it in (read(f"{to}/SHA256SUMS") or b"").decode().split("\n")[:-1])
    trials.want("the sums", sums, {it: hashlib.sha256(read(f"{to}/{it}")).hexdigest() for it in made})
    for target in targets:
        os.mkdir(f"{room}/{target}")
        newest = try_archive(trials, target, f"{to}/nlog-{version}-linux-{target}.tar.gz", version, f"{room}/{target}")
        if target == "x86_64":
            least = newest
    trials.about = ""
    page = read(f"{TOP}/docs/RELEASE.md").decode()
    for it in (f"nlog-{version}-linux-x86_64.tar.gz", f"nlog_{version}_amd64.deb"):
        trials.check(f"docs/RELEASE.md says {it}", it in page)
    if has_packages and len(targets) == 2:
        try_packages(trials, to, versions, least, room)
    else:
        trials.skip("the packages", "dpkg-deb, or the compiler for ARM64, isn't there")
    return None


if __name__ == "__main__":
    sys.exit(main(__file__, trial))
