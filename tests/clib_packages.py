"""How the library for C is taken into another program: pkg-config, CMake, a copy of the archive. For clib.py."""
import os
import re
import shutil

from clib_driver import STRICT, TOP
from log_format import HEADER, command_hash
from trials import BUILD_SECONDS, read, run, write

PROJECT = """cmake_minimum_required(VERSION 3.10)
project(takes C)
find_package(nlog %s REQUIRED)
add_executable(shared example.c)
target_link_libraries(shared PRIVATE nlog::nlog)
add_executable(archive example.c)
target_link_libraries(archive PRIVATE nlog::static)
"""


def example(room):
    """The first example of docs/LIBRARY.md, as a file."""
    os.makedirs(room, exist_ok=True)
    write(f"{room}/example.c", re.search(r"(?s)```c\n(.*?)```", read(f"{TOP}/docs/LIBRARY.md").decode())[1].encode())
    return f"{room}/example.c"


def makes_its_log(trials, about, words, room, **more):
    if os.path.exists(f"{room}/.ninja_log"):
        os.remove(f"{room}/.ninja_log")
    write(f"{room}/in.txt", b"hello\n")
    trials.want(f"{about} runs", run(words, cwd=room, **more), (0, b"made a.txt\n", b""))
    lines = (read(f"{room}/.ninja_log") or b"").split(b"\n")
    trials.want(f"{about}: its log", (lines[0], lines[-2].split(b"\t")[3:]), (HEADER[:-1], [b"a.txt", b"%x" % command_hash(b"cat in.txt > a.txt")]))


def by_pkg_config(trials, prefix, room):
    if shutil.which("pkg-config") is None:
        trials.skip("the flags of pkg-config", "it isn't there")
        return
    env = {**os.environ, "PKG_CONFIG_PATH": f"{prefix}/lib/pkgconfig"}
    flags = {it: run(["pkg-config", *it.split(), "nlog"], env=env)[1].decode().split() for it in ("--cflags --libs", "--static --cflags --libs", "--modversion")}
    trials.want("the version of pkg-config", flags["--modversion"], ["0.2.0"])
    ran = run(["cc", "-std=c11", example(room), *flags["--cflags --libs"], f"-Wl,-rpath,{prefix}/lib", "-o", f"{room}/shared"])
    if trials.check("a program by pkg-config", ran[0] == 0, ran[2][-400:]):
        makes_its_log(trials, "a program by pkg-config", [f"{room}/shared"], room)
    ran = run(["cc", "-std=c11", "-static", example(room), *flags["--static --cflags --libs"], "-o", f"{room}/static"])
    if trials.check("a static program by pkg-config --static", ran[0] == 0, ran[2][-400:]):
        makes_its_log(trials, "a static program by pkg-config --static", [f"{room}/static"], room, env={})


def by_cmake(trials, prefix, room):
    if shutil.which("cmake") is None or shutil.which("make") is None and shutil.which("ninja") is None:
        trials.skip("a project of CMake", "cmake, or what it builds by, isn't there")
        return
    example(room)
    # The prefix may be moved: the files go by where they lie.
    moved = f"{room}/moved here"
    shutil.copytree(prefix, moved, symlinks=True)
    how = [] if shutil.which("make") else ["-G", "Ninja"]
    for asked, is_taken in (("", True), ("0.2", True), ("0.2.0 EXACT", True), ("0.1", False), ("0.2.1", False), ("0.3", False), ("1", False)):
        shutil.rmtree(f"{room}/build", ignore_errors=True)
        write(f"{room}/CMakeLists.txt", (PROJECT % asked).encode())
        ran = run(["cmake", *how, "-S", room, "-B", f"{room}/build", f"-DCMAKE_PREFIX_PATH={moved}"])
        trials.want(f"a project that asks for version {asked or 'any'}", ran[0] == 0, is_taken)
        if asked == "" and ran[0] == 0:
            ran = run(["cmake", "--build", f"{room}/build"])
            if trials.check("it is built", ran[0] == 0, (ran[1] + ran[2])[-500:]):
                for name in ("shared", "archive"):
                    makes_its_log(trials, f"its program with the {name}", [f"{room}/build/{name}"], room)
                needed = run(["objdump", "-p", f"{room}/build/archive"])[1] if shutil.which("objdump") else b""
                trials.check("the one with the archive needs no libnlog", b"libnlog" not in needed, needed[-300:])


def vendored(trials, made, room):
    """The archive and the header alone, in a folder of their own: they need nothing but the C library."""
    os.makedirs(f"{room}/vendor")
    shutil.copy(made["archive"], f"{room}/vendor/libnlog.a")
    shutil.copy(f"{TOP}/include/nlog.h", f"{room}/vendor/nlog.h")
    ran = run(["cc", "-std=c11", *STRICT[:-2], "-I", "vendor", os.path.relpath(example(room), room), "vendor/libnlog.a", "-nodefaultlibs", "-lc", "-o", "vendored"], cwd=room)
    if trials.check("a program over a copy of the archive, with the C library alone", ran[0] == 0 and not ran[2], ran[2][-400:]):
        makes_its_log(trials, "that program", [f"{room}/vendored"], room)
    wants = set(re.findall(r"(?m)^ +U (\S+)$", run(["nm", "-u", f"{room}/vendor/libnlog.a"])[1].decode())) - {"_GLOBAL_OFFSET_TABLE_"}
    path = run(["cc", "-print-file-name=libc.so.6"])[1].decode().strip()
    has = {it.partition("@")[0] for it in re.findall(r"(?m) [TWiDBV] (\S+)$", run(["nm", "-D", "--defined-only", path])[1].decode())}
    if trials.check("the C library's names are told", len(has) > 1000, path):
        trials.want("what the archive wants beside the C library", wants - has, set())


def by_script(trials, room):
    """lib/archive.sh from another folder, by a link, with a folder that is relative; and what it says where something is missing."""
    os.makedirs(f"{room}/to/here")
    os.symlink(f"{TOP}/lib/archive.sh", f"{room}/link.sh")
    for words in ([f"{TOP}/lib/archive.sh"], ["./link.sh"], ["sh", os.path.relpath(f"{TOP}/lib/archive.sh", room)]):
        shutil.rmtree(f"{room}/to/here")
        os.mkdir(f"{room}/to/here")
        ran = run([*words, "to/here/libnlog.a"], cwd=room, env={**os.environ, "CDPATH": "/:/tmp"}, timeout=BUILD_SECONDS)
        about = f"{os.path.basename(words[-1])} by {words[0][-12:]}"
        trials.want(f"{about}: its status", ran[0], 0)
        trials.want(f"{about}: what it makes", sorted(os.listdir(f"{room}/to/here")), ["libnlog.a", "libnlog.so", "libnlog.so.0", "libnlog.so.0.2.0"])
    ran = run([f"{TOP}/lib/archive.sh", "none/libnlog.a"], cwd=room)
    trials.want("a folder that is missing", (ran[0], ran[2]), (1, b"lib/archive.sh: none isn't there, the folder of none/libnlog.a\n"))
    trials.want("no word", run([f"{TOP}/lib/archive.sh"], cwd=room)[0], 2)
    # Folders with all but one of what it takes.
    tools = ["sh", "dirname", "readlink", "rt", "cc", "ar", "nm", "objcopy"]
    for missing in tools[3:]:
        folder = f"{room}/without-{missing}"
        os.mkdir(folder)
        for it in tools:
            if it != missing:
                os.symlink(shutil.which(it), f"{folder}/{it}")
        ran = run([f"{folder}/sh", f"{TOP}/lib/archive.sh", "to/libnlog.a"], cwd=room, env={"PATH": folder})
        begin = f"lib/archive.sh: {missing} isn't there".encode()
        trials.check(f"it says that {missing} is missing, in one line", ran[0] == 1 and ran[2].startswith(begin) and ran[2].count(b"\n") == 1, ran[2])


def header_alone(trials, room):
    """The header by itself, in each language from C99 and C++11 on, without a warning."""
    write(f"{room}/alone.c", b'#include "nlog.h"\nint main(void) { return nlog_status_name(NLOG_OK) == 0; }\n')
    c, cxx = ("c", ("c99", "c11", "c17", "gnu17")), ("c++", ("c++11", "c++14", "c++17", "c++20"))
    for compiler, (language, standards) in (("gcc", c), ("clang", c), ("g++", cxx), ("clang++", cxx)):
        if shutil.which(compiler) is None:
            trials.skip(f"the header by {compiler}", "it isn't there")
            continue
        for it in standards:
            ran = run([compiler, "-x", language, f"-std={it}", "-Wall", "-Wextra", "-pedantic", "-Werror", "-I", f"{TOP}/include", "-fsyntax-only", f"{room}/alone.c"])
            trials.want(f"the header as {it} by {compiler}", (ran[0], ran[2]), (0, b""))


def by_meson(trials, prefix, room):
    if shutil.which("meson") is None or shutil.which("ninja") is None:
        trials.skip("a project of Meson", "meson or ninja isn't there")
        return
    example(room)
    env = {**os.environ, "PKG_CONFIG_PATH": f"{prefix}/lib/pkgconfig"}
    for wanted, is_taken in ((">=0.2", True), (">=0.3", False)):
        shutil.rmtree(f"{room}/build", ignore_errors=True)
        write(f"{room}/meson.build", f"project('takes', 'c')\nexecutable('takes', 'example.c', dependencies : dependency('nlog', version : '{wanted}'))\n".encode())
        ran = run(["meson", "setup", f"{room}/build", room], env=env)
        trials.want(f"a project of Meson that asks for {wanted}", ran[0] == 0, is_taken)
        if is_taken and ran[0] == 0:
            ran = run(["meson", "compile", "-C", f"{room}/build"], env=env)
            if trials.check("it is built", ran[0] == 0, (ran[1] + ran[2])[-500:]):
                makes_its_log(trials, "its program", [f"{room}/build/takes"], room, env={"LD_LIBRARY_PATH": f"{prefix}/lib", "PATH": os.environ["PATH"]})


def by_libdir(trials, program, room):
    """LIBDIR, of one folder and of two: what pkg-config and CMake say of it, and what stands there."""
    for libdir in ("lib64", "lib/x86_64-linux-gnu"):
        prefix = f"{room}/{libdir.replace('/', '-')}"
        ran = run([f"{TOP}/install.sh", prefix], env={**os.environ, "NLOG_PROGRAM": program, "LIBDIR": libdir}, timeout=BUILD_SECONDS)
        if not trials.check(f"install.sh with {libdir}", ran[0] == 0, (ran[1] + ran[2])[-400:]):
            continue
        found = sorted(os.listdir(f"{prefix}/{libdir}"))
        trials.want(f"{libdir}: what is put there", [it for it in found if it != "x86_64-linux-gnu"], ["cmake", "libnlog.a", "libnlog.so", "libnlog.so.0", "libnlog.so.0.2.0", "pkgconfig"])
        if libdir == "lib64":
            trials.check("and nothing below lib", not os.path.exists(f"{prefix}/lib"))
        if shutil.which("pkg-config"):
            said = run(["pkg-config", "--libs", "nlog"], env={**os.environ, "PKG_CONFIG_PATH": f"{prefix}/{libdir}/pkgconfig"})[1].split()
            trials.check(f"{libdir}: the flags of pkg-config", f"-L{prefix}/{libdir}".encode() in said, str(said))
        if shutil.which("cmake") and (shutil.which("make") or shutil.which("ninja")):
            example(room)
            shutil.rmtree(f"{room}/build", ignore_errors=True)
            write(f"{room}/CMakeLists.txt", (PROJECT % "0.2").encode())
            ran = run(["cmake", *([] if shutil.which("make") else ["-G", "Ninja"]), "-S", room, "-B", f"{room}/build", f"-Dnlog_DIR={prefix}/{libdir}/cmake/nlog"])
            ran = run(["cmake", "--build", f"{room}/build"]) if ran[0] == 0 else ran
            if trials.check(f"{libdir}: a project of CMake is built", ran[0] == 0, (ran[1] + ran[2])[-500:]):
                makes_its_log(trials, f"{libdir}: its program", [f"{room}/build/shared"], room)
    for bad in ("", "/usr/lib", "../lib"):
        trials.want(f"LIBDIR={bad}", run([f"{TOP}/install.sh", f"{room}/bad"], env={**os.environ, "NLOG_PROGRAM": program, "LIBDIR": bad})[0], 2)


def trial(trials, made, program, room):
    for it in ("pkg", "cmake", "meson", "libdir", "vendored", "script"):
        os.mkdir(f"{room}/take-{it}")
    header_alone(trials, f"{room}/take-vendored")
    vendored(trials, made, f"{room}/take-vendored")
    by_script(trials, f"{room}/take-script")
    prefix = f"{room}/take-prefix"
    ran = run([f"{TOP}/install.sh", prefix], env={**os.environ, "NLOG_PROGRAM": program}, timeout=BUILD_SECONDS)
    if trials.check("install.sh puts the library", ran[0] == 0, (ran[1] + ran[2])[-400:]):
        by_pkg_config(trials, prefix, f"{room}/take-pkg")
        by_cmake(trials, prefix, f"{room}/take-cmake")
        by_meson(trials, prefix, f"{room}/take-meson")
        by_libdir(trials, program, f"{room}/take-libdir")
