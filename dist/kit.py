"""The kit's compiler, called as `rt ci` calls it: a crate is proved over the statements of the crates below it, which are what it can
cite of them, and nothing of how it was proved is kept but its own statements. Over the proofs of those below, which `rt lib` keeps,
each crate would load them all, and with work kept for a next check its jobs would each load them anew."""

import os
import shutil
import subprocess
import tempfile

import parts

TARGET = "x86_64-unknown-linux-gnu"


def place(name):
    """Where the statements of a crate are kept, beside what rt keeps in out/."""
    return os.path.join(parts.CRATES, name, "out", "statements")


def library(name):
    return os.path.join(place(name), f"{name}.rlib")


class Ran:
    """A call that is over: what it told, whether it went well, and the seconds that it took of a processor."""

    def __init__(self, words, folder):
        with tempfile.TemporaryFile() as told:
            called = subprocess.Popen(words, cwd=folder, stdin=subprocess.DEVNULL, stdout=told, stderr=subprocess.STDOUT)
            _, status, usage = os.wait4(called.pid, 0)
            called.returncode = os.waitstatus_to_exitcode(status)
            told.seek(0)
            self.told = told.read().decode(errors="replace")
        self.is_well = called.returncode == 0
        self.seconds = usage.ru_utime + usage.ru_stime


class Kit:
    def __init__(self):
        page = subprocess.run(["rt", "doc"], stdout=subprocess.PIPE, check=True).stdout.decode().strip()
        self.folder = os.path.dirname(page)
        self.version = parts.toolchain()

    def path(self, *names):
        return os.path.join(self.folder, *names)

    def words(self, name, root, jobs):
        """What a crate is built of."""
        crates = parts.all_crates()
        words = ["--crate-name", name, root]
        for library_of_kit in ["std", *parts.kit_libraries(name)]:
            words += ["--extern", f"{library_of_kit}={self.path('rlibs', library_of_kit)}.rlib"]
        words += ["-L", f"dependency={self.path('rlibs')}"]
        for lower in crates[name]:
            words += ["--extern", f"{lower}={library(lower)}"]
        for lower in parts.below(name):
            words += ["-L", f"dependency={place(lower)}"] if lower != name else []
        words += ["--antt-project", self.path("rattle", "logic", "antt-project.json"), "--logic-built", self.path("logic_built")]
        return [*words, "--links", f"{name}=", "--jobs", str(jobs)]

    def call(self, name, tool, *words):
        return Ran([self.path("bin", tool), *words], os.path.join(parts.CRATES, name))

    def prove(self, name, jobs):
        """Proves a library, and keeps its statements. What an earlier build proved of the same sources stands."""
        stamp, kept = parts.stamp(name, self.version), os.path.join(place(name), "stamp")
        if parts.text(kept) == stamp and os.path.exists(library(name)):
            return None
        shutil.rmtree(place(name), ignore_errors=True)
        os.makedirs(place(name))
        words = [*self.words(name, "src/lib.rt", jobs), "--statements", "-o", library(name)]
        ran = self.call(name, "rattle", "build", *words)
        if ran.is_well and parts.stamp(name, self.version) == stamp:
            with open(kept, "w", encoding="utf-8") as file:
                file.write(stamp)
        return ran

    def compile(self, name, jobs):
        """Proves, compiles and links a program."""
        os.makedirs(os.path.dirname(parts.BUILT), exist_ok=True)
        toolchain, made = ["--toolchain", self.path("toolchain")], f"{parts.BUILT}.o"
        words = [*self.words(name, "src/main.rt", jobs), *toolchain, "--backend", "llvm", "-o", made]
        ran = self.call(name, "rattle", "build", *words)
        if not ran.is_well:
            return ran
        libraries = [self.path("c", "libos_c.a"), self.path("c", "liblibc_c.a")]
        linked = self.call(name, "rattle-link", "--target", TARGET, *toolchain, "-o", parts.BUILT, made, *libraries)
        linked.seconds += ran.seconds
        return linked
