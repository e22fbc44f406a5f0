"""What `run` and `audit` share: the crates of this repository, and copies of them in which checks run side by side."""
import glob, hashlib, os, shutil, signal, subprocess, sys, tempfile, time

TOP = os.path.dirname(os.path.dirname(os.path.realpath(__file__)))
PROCESSORS = len(os.sched_getaffinity(0))


def say(text):
    print(text, file=sys.stderr, flush=True)


def with_rt():
    if shutil.which("rt") is None:
        say("the toolchain's command rt is not on the path")
        sys.exit(127)


def crates():
    """Returns the libraries of this repository that each crate uses, by the lines of crates.txt."""
    with open(f"{TOP}/crates.txt") as file:
        lines = [line.partition("#")[0].split(":") for line in file]
    used = {line[0].split()[0]: line[1].split() for line in lines if len(line) == 2}
    return {name: [it for it in words if it in used] for name, words in used.items()}


def is_of_tests(name):
    """Returns whether a crate holds tests, or what tests use."""
    return name.endswith("_tests") or name == "fixtures"


def below(used, name):
    """Returns the crate and all that it stands on."""
    found, left = set(), [name]
    while left:
        it = left.pop()
        if it not in found:
            found.add(it)
            left += used[it]
    return found


def files_of(name, parts=("src", "specs", "proofs")):
    return sorted(it for part in parts for it in glob.glob(f"{TOP}/crates/{name}/{part}/**", recursive=True) if os.path.isfile(it))


def sum_of_file(path):
    with open(path, "rb") as file:
        return hashlib.sha256(file.read()).hexdigest()


def sum_of(names):
    """Returns the checksum of all that a build of these crates reads."""
    total = hashlib.sha256()
    for path in [f"{TOP}/crates.txt", *(it for name in sorted(names) for it in files_of(name))]:
        total.update(f"{os.path.relpath(path, TOP)}\n".encode() + bytes.fromhex(sum_of_file(path)))
    return total.hexdigest()


def text_of(path):
    try:
        with open(path) as file:
            return file.read()
    except OSError:
        return ""


def link_or_copy(one, other):
    """Gives what the toolchain made a second name, since it never writes into such a file; copies any other."""
    try:
        if one.endswith(".oantt") or "/out/rlib/" in one:
            return os.link(one, other)
    except OSError:
        pass
    return shutil.copy2(one, other)


class Room:
    """A copy of a crate and of all that it stands on, with what was proved of them: of two checks in folders of one crate the toolchain lets one wait, so
    checks side by side want folders of their own."""

    def __init__(self, used, name):
        os.makedirs(f"{TOP}/out", exist_ok=True)
        self.name, self.top = name, tempfile.mkdtemp(prefix=f"{name}-", dir=f"{TOP}/out")
        self.names = below(used, name)
        shutil.copy2(f"{TOP}/HANDLES", self.top)
        with open(f"{self.top}/crates.txt", "w") as file, open(f"{TOP}/crates.txt") as lines:
            file.writelines(line for line in lines if line.partition(":")[0] in self.names)
        for it in self.names:
            shutil.copytree(f"{TOP}/crates/{it}", self.folder(it), symlinks=True, copy_function=link_or_copy)

    def folder(self, name):
        return f"{self.top}/crates/{name}"

    def close(self, is_own_kept=True):
        """Hands back the libraries that were built of the crates below, and what was made of the crate itself, proved or not, where that is asked for;
        removes the room."""
        if is_own_kept:
            self.hand_back(f"{self.name}/out")
        for name in self.names - {self.name}:
            if text_of(f"{self.folder(name)}/out/rlib/stamp") != text_of(f"{TOP}/crates/{name}/out/rlib/stamp"):
                self.hand_back(f"{name}/out/rlib")
        shutil.rmtree(self.top, ignore_errors=True)

    def hand_back(self, path):
        made, kept = f"{self.top}/crates/{path}", f"{TOP}/crates/{path}"
        if os.path.isdir(made):
            os.makedirs(os.path.dirname(kept), exist_ok=True)
            shutil.rmtree(kept, ignore_errors=True)
            os.rename(made, kept)


class Step:
    """A command of the toolchain in a session of its own, so that an interrupt ends all that it started. Its text goes to a file."""

    def __init__(self, words, folder):
        self.file = tempfile.TemporaryFile()
        how = {"stdin": subprocess.DEVNULL, "stdout": self.file, "stderr": subprocess.STDOUT}
        self.run = subprocess.Popen(words, cwd=folder, start_new_session=True, **how)

    def is_done(self):
        return self.run.poll() is not None

    def wait(self):
        try:
            self.run.wait()
        finally:
            self.end()

    def end(self):
        if not self.is_done():
            os.killpg(self.run.pid, signal.SIGTERM)
            self.run.wait()

    def text(self):
        self.file.seek(0)
        return self.file.read().decode(errors="replace")

    def is_proved(self):
        return self.run.returncode == 0 and "logic=proved" in self.text()


def on_interrupt(said):
    """Has an interrupt or a termination end the command with these words, and lets no second one break off what is put away then."""

    def interrupt(number, _):
        for it in (signal.SIGINT, signal.SIGTERM):
            signal.signal(it, signal.SIG_IGN)
        say(said)
        sys.exit(128 + number)

    for it in (signal.SIGINT, signal.SIGTERM):
        signal.signal(it, interrupt)


def chains(used, names):
    """Returns for each of these crates the bytes of the longest chain of them that stands on it, itself counted."""
    above = {name: [it for it in names if name in used[it]] for name in names}
    length = {}

    def of(name):
        if name not in length:
            length[name] = sum(map(os.path.getsize, files_of(name))) + max(map(of, above[name]), default=0)
        return length[name]

    return {name: of(name) for name in names}


def prove(used, names):
    """Proves these crates, side by side where none stands on the other, longest chain first, and tells each that is done. Returns
    whether all went well."""
    say(f"proving {len(names)} crates on {PROCESSORS} processors, which may take more than half an hour the first time:")
    chain, left, running, done, free = chains(used, names), set(names), {}, set(), PROCESSORS
    try:
        while left or running:
            ready = sorted((it for it in left if done.issuperset(used[it])), key=lambda it: -chain[it])
            while ready and free:
                name = ready.pop(0)
                # a share of the processors by the length of its chain, among those that are ready
                jobs = max(1, round(free * chain[name] / sum(chain[it] for it in [name, *ready[: free - 1]])))
                left.remove(name)
                room = Room(used, name)
                running[name] = Step(["rt", "check", "--jobs", str(jobs)], room.folder(name)), room, jobs
                free -= jobs
            name = next((it for it, (step, _, _) in running.items() if step.is_done()), None)
            if name is None:
                time.sleep(0.1)
                continue
            step, room, jobs = running.pop(name)
            room.close()
            free += jobs
            if not step.is_proved():
                say(step.text().replace(room.top, TOP)[-4000:] + f"{name} is not proved")
                return False
            done.add(name)
            say(f"  {name} is done, {len(left) + len(running)} left")
        return True
    finally:
        for step, room, _ in running.values():
            step.end()
            room.close()
