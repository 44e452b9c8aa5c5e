"""Tests of record_release.sh with a Bazel that is none, in which each command fails in turn.
(tools/end_to_end/bazel_attacks.sh tries it with a real one.)"""

import concurrent.futures
import json
import os
import shutil
import subprocess
import sys

import verify_stages
from shared import stores
from shared.crates import TOP
from tests import spawns
from tests.bazel_case import Case

SCRIPT = os.path.join(TOP, "tools", "evidence", "record_release.sh")
BELOW = "bazel-out/k8-fastbuild/bin/release"
# Each way in which a shell calls a script whose status says whether to ship.
WAYS = {
    "plainly": 'set -e; "$@"; echo shipped',
    "in if": 'set -e; if "$@"; then echo shipped; else exit $?; fi',
    "in &&": 'set -e; "$@" && echo shipped',
}
COMMANDS = ("chmod", "cp", "env", "git", "mkdir", "mktemp", "mount", "mv", "python3", "realpath", "rm", "unshare")
# Counts how often it and the others are called, and fails the call of a number; else it is the command itself.
STUB = """#!/bin/sh
read -r count <'{at}/count'
count=$((count + 1))
echo "$count" >'{at}/count'
echo '{name}' >>'{at}/called'
read -r fails <'{at}/fails'
[ "$count" != "$fails" ] || exit 1
exec '{real}' "$@"
"""
# It makes release/a of the file a, and release/b, and logs that.
BAZEL = """#!{python}
import json, os, sys
from spawns import log, spawn
words = dict(it.partition("=")[::2] for it in sys.argv[1:])
with open("{at}/words", "a") as out:
    out.write(json.dumps([sys.argv[1:], dict(os.environ), os.getcwd()]) + "\\n")
if "--nobuild" in words:
    sys.exit()
if os.path.exists("{at}/after"):
    with open("{at}/after") as it:
        name, text = it.read().split()
    with open(name, "w") as out:
        out.write(text)
with open("a") as it:
    content = it.read()
outputs = {{"{below}/a": content.upper(), "{below}/b": "b"}}
for path, text in outputs.items():
    path = words["--output_base"] + "/execroot/it/" + path
    os.makedirs(os.path.dirname(path), exist_ok=True)
    with open(path, "w") as out:
        out.write(text)
    os.chmod(path, 0o555)
if os.path.exists("{at}/unlogged"):
    with open("{at}/unlogged") as it:
        path = words["--output_base"] + "/execroot/it/" + it.read().strip()
    open(path, "w").close()
with open("{at}/spawn") as it:
    other = json.load(it)
with open(words["--execution_log_json_file"], "w") as out:
    out.write(log(spawn({{"a": content}}, list(outputs), outputs, **other)))
"""
# It says yes to one claim, and to each other no.
PROGRAM = """#!/bin/sh
while [ "$1" != --claim ]; do shift; done
read -r claim <'{at}/claimed'
[ "$2" = "$claim" ] || {{ echo "no root cause root-differs $claim"; exit 1; }}
echo "yes $2 steps 1"
"""


def write_program(path, text):
    stores.write_texts(os.path.dirname(path), {os.path.basename(path): text.splitlines()})
    os.chmod(path, 0o755)


class Place:
    """A folder with a repository in which `a` is a source, a release of it, and the commands."""

    def __init__(self, at):
        self.at = at
        write_program(f"{at}/real/bazel", BAZEL.format(at=at, python=sys.executable, below=BELOW))
        os.symlink(spawns.__file__, f"{at}/real/spawns.py")
        write_program(f"{at}/real/buildcache", PROGRAM.format(at=at))
        for name in (*COMMANDS, "bazel", "buildcache"):
            real = f"{at}/real/{name}" if name in ("bazel", "buildcache") else shutil.which(name)
            write_program(f"{at}/bin/{name}", STUB.format(at=at, name=name, real=real))
        stores.write_texts(f"{at}/shipped", {})
        self.ship(a="A\n", b="b")
        stores.write_texts(at, {"spawn": ["{}"], "claimed": [verify_stages.claim_of(f"{at}/shipped")]})
        for name in ("home", "tmp"):
            os.mkdir(f"{at}/{name}")
        stores.write_texts(f"{at}/home", {".gitconfig": ['[filter "f"]', "smudge = echo poison"]})
        stores.write_texts(f"{at}/repository", {"a": ["a"], "WORKSPACE": [], ".gitattributes": ["a filter=f"]})
        self.git("init", "--quiet")
        self.commit = self.commit_all()

    def git(self, *words):
        settings = ["-c", "user.name=it", "-c", "user.email=it@it"]
        ran = subprocess.run(["git", "-C", f"{self.at}/repository", *settings, *words], check=True, text=True,
                             env={"PATH": os.environ["PATH"], "HOME": f"{self.at}/home"}, capture_output=True)
        return ran.stdout.strip()

    def commit_all(self):
        self.git("add", "--all")
        self.git("commit", "--quiet", "--message", "it")
        return self.git("rev-parse", "HEAD")

    def ship(self, **contents):
        for name, content in contents.items():
            stores.write_file(f"{self.at}/shipped/{name}", content.encode())
            os.chmod(f"{self.at}/shipped/{name}", 0o755)

    def words(self, *more, **other):
        """The words of the script, of which some may be others."""
        named = {"repository": "repository", "commit": self.commit, "shipped": "shipped", "folder": "out", "target": "//:it"}
        named.update(other)
        return [SCRIPT, "--below", BELOW, "--outputs", f"{BELOW}/*", *more, *(it for it in named.values() if it is not None)]

    def run(self, *words, fails=0, way="exec \"$@\"", **env):
        """The status, and what is printed; a call of a command fails."""
        stores.write_texts(self.at, {"count": ["0"], "fails": [str(fails)], "called": [], "words": []})
        place = {"PATH": f"{self.at}/bin:{os.environ['PATH']}", "HOME": f"{self.at}/home", "TMPDIR": f"{self.at}/tmp",
                 "BUILDCACHE": f"{self.at}/bin/buildcache", "PYTHONDONTWRITEBYTECODE": "1", **env}
        ran = subprocess.run(["sh", "-c", way, "sh", *words], cwd=self.at, env=place, capture_output=True, text=True, check=False,
                             stdin=subprocess.DEVNULL)
        return ran.returncode, ran.stdout, ran.stderr

    def lines(self, name):
        with open(f"{self.at}/{name}", encoding="utf-8") as it:
            return it.read().splitlines()


class Scripts(Case):
    def setUp(self):
        super().setUp()
        self.place = Place(self.at("place"))
        self.yes = f"yes {self.place.lines('claimed')[0]} steps 1\n"

    def refuses(self, reason, status, *words, **env):
        found, out, err = self.place.run(*words, **env)
        self.assertEqual((found, out, err.count("\n"), err[:7]), (status, "", 1, "error: "), err)
        self.assertIn(reason, err)
        for name in ("evidence", "evidence.tar"):
            self.assertFalse(os.path.exists(self.at("place", "out", name)))
        self.assertEqual(os.listdir(self.at("place", "tmp")), [])


class EachCommandFails(Scripts):
    def test_in_turn(self):
        """No call of a command fails unnoticed, whichever way the script is called, and a run before doesn't stand in for it."""
        count = len(self.called())
        with concurrent.futures.ThreadPoolExecutor(4) as pool:
            faults = [it for found in pool.map(self.faults_at, range(1, count + 1)) for it in found]
        self.assertEqual(faults, [])

    def called(self):
        """The commands that a whole run calls. It says yes, each way."""
        for way in WAYS.values():
            self.assertEqual(self.place.run(*self.place.words(), way=way), (0, f"{self.yes}shipped\n", ""))
        called = self.place.lines("called")
        needed = {*COMMANDS, "bazel", "buildcache"} - ({"unshare", "mount"} if not has_namespace() else set())
        self.assertEqual(needed - set(called), set())
        return called

    def faults_at(self, number):
        """What is wrong where the call of this number fails, in a place that an earlier run left."""
        place, faults = Place(self.at(f"place-{number}")), []
        for name, way in WAYS.items():
            shutil.rmtree(f"{place.at}/out", ignore_errors=True)
            shutil.copytree(self.at("place", "out"), f"{place.at}/out")
            status, out, err = place.run(*place.words(), fails=number, way=way)
            if status == 0 or out or not err.startswith("error: ") or os.path.exists(f"{place.at}/out/evidence/claim"):
                faults.append((number, place.lines("called")[number - 1], name, status, out, err))
        return faults


class Words(Scripts):
    def test_words(self):
        words, place = self.place.words, self.place
        rows = {
            "REPOSITORY, COMMIT, SHIPPED, FOLDER and a target are needed": words(target=None),
            "there is no option --x": words("--x"),
            "--below is given twice": words("--below", "x"),
            "--taken has no value": words("--taken", ""),
            "--jobs has no value": [*words(), "--jobs"],
            "main is no whole hash of a commit": words(commit="main"),
            f"{place.commit[:12]} is no whole hash": words(commit=place.commit[:12]),
            "one of the words is empty": words(shipped=""),
            "--outputs says what the release must have": [it for it in words() if it != "--outputs" and not it.endswith("*")],
            "--workspace ../x is no folder of the repository": words("--workspace", "../x"),
            "--env 1=x is no NAME=VALUE": words("--env", "1=x"),
            "-x is no repository": [SCRIPT, "--outputs", "*", "--", "-x", place.commit, "shipped", "out", "//:it"],
            "lie in each other": words(folder="shipped/out"),
            '"." lie in each other': words(folder="."),
            '/home/x" isn\'t of this script': words(folder="home"),
        }
        stores.write_texts(self.at("place", "home"), {"x": [], "evidence": []})
        for reason, row in rows.items():
            with self.subTest(reason):
                self.refuses(reason, 2, *row)
        self.assertEqual(sorted(os.listdir(self.at("place", "shipped"))), ["a", "b"])
        self.assertEqual(sorted(os.listdir(self.at("place", "home"))), [".gitconfig", "evidence", "x"])

    def test_what_is_not_there(self):
        write_program(self.at("place", "preview"), "#!/bin/sh\nexec tools/preview.sh\n")
        for reason, words, env in (
            ("bazel-none isn't there", self.place.words(), {"BAZEL": "bazel-none"}),
            ("no-program isn't there", self.place.words(), {"BUILDCACHE": "no-program"}),
            ("is the preview, or runs it: nothing is proved of that", self.place.words(), {"BUILDCACHE": "./preview"}),
            ('"none" is no folder', self.place.words(shipped="none"), {}),
            ("commit " + "0" * 40 + " of ", self.place.words(commit="0" * 40), {}),
            ("of none can't be checked out", self.place.words(repository="none"), {}),
        ):
            with self.subTest(reason):
                self.refuses(reason, 3, *words, **env)

    def test_what_bazel_is_told(self):
        """What reaches a cache or another machine is off behind all that the caller gives, and no variable is handed on."""
        more = ["--bazel-option", "--remote_cache=http://x", "--env", "CC=/bin/cc", "--fetch"]
        self.assertEqual(self.place.run(*self.place.words(*more), REMOTE="x", CC="y", GIT_DIR="/nowhere")[0], 0)
        told = [json.loads(it) for it in self.place.lines("words")]
        self.assertEqual([("--nobuild" in words) for words, _, _ in told], [True, False])
        for words, variables, folder in told:
            self.assertEqual(variables.keys() - {"PWD", "SHLVL", "_", "LC_CTYPE"}, {"PATH", "HOME", "CC"})
            self.assertEqual(variables["CC"], "/bin/cc")
            roots = [it.partition("=")[2] for it in words if it.startswith(("--output_user_root=", "--output_base="))]
            self.assertEqual(len(roots), 2)
            for it in (folder, variables["HOME"], *roots):
                self.assertEqual(os.path.dirname(os.path.dirname(it)), self.at("place", "tmp"))
            self.assertLess(words.index("--nohome_rc"), words.index("build"))
            for it in ("remote_cache=", "disk_cache=", "remote_executor=", "experimental_remote_downloader=", "bes_backend="):
                self.assertLess(words.index("--remote_cache=http://x"), words.index(f"--{it}"))
            self.assertEqual(words[-2:], ["--", "//:it"])


class Places(Scripts):
    """Where the script refuses to run, since a cache may have written there."""

    def test_links_of_bazel(self):
        os.symlink("/nowhere", self.at("place", "repository", "bazel-out"))
        self.refuses("bazel-out\" is a link of a Bazel that built here", 2, *self.place.words("--no-cache-was-used"))
        os.remove(self.at("place", "repository", "bazel-out"))
        os.mkdir(self.at("place", "repository", "sub"))
        os.symlink("/nowhere", self.at("place", "repository", "sub", "bazel-bin"))
        self.refuses("bazel-bin\" is a link", 2, *self.place.words("--workspace", "sub"))

    def test_output_bases(self):
        mark = self.at("place", "home", ".cache", "bazel", "_bazel_it", "0" * 32)
        for workspace in (self.at("place", "repository"), self.at("place", "repository", "sub")):
            stores.write_texts(mark, {"DO_NOT_BUILD_HERE": [workspace]})
            for more in ([], ["--no-cache-was-used"]):
                self.refuses('is Bazel\'s output base of this workspace', 2, *self.place.words(*more))
        stores.write_texts(mark, {"DO_NOT_BUILD_HERE": [self.at("place", "repository2")]})
        self.refuses(f'is Bazel\'s output base of "{self.at("place", "repository2")}"', 2, *self.place.words())
        self.refuses("is Bazel's output base of", 2, *self.place.words(repository=f"file://{self.at('place', 'repository')}"))
        self.assertEqual(self.place.run(*self.place.words("--no-cache-was-used"))[1], self.yes)

    def test_a_server_of_bazel(self):
        words = ["sh", "-c", "read it", f"--workspace_directory={self.at('place', 'repository')}"]
        with subprocess.Popen(words, stdin=subprocess.PIPE) as server:
            self.refuses("a server of Bazel works in", 2, *self.place.words("--no-cache-was-used"))
            server.stdin.close()
        self.assertEqual(self.place.run(*self.place.words())[1], self.yes)


class Releases(Scripts):
    def test_a_yes_and_what_is_left(self):
        self.assertEqual(self.place.run(*self.place.words()), (0, self.yes, ""))
        self.assertEqual(sorted(os.listdir(self.at("place", "out"))), ["build.json", "evidence", "log", "shipped"])
        self.assertEqual(os.listdir(self.at("place", "tmp")), [])

    def test_evidence_in_an_archive(self):
        words = self.place.words("--archive")
        self.assertEqual(self.place.run(*self.place.words())[:2], (0, self.yes))
        # (with --jobs the tool puts the line of stages together, which this program doesn't print)
        for stages, yes in ([], self.yes), (["--stages", "1", "--jobs", "1"], self.yes.replace("steps", "stages 1 steps")):
            self.assertEqual(self.place.run(*words, *stages)[:2], (0, yes))
            self.assertEqual(sorted(os.listdir(self.at("place", "out"))), ["build.json", "evidence.tar", "log", "shipped"])
            self.assertEqual(os.listdir(self.at("place", "tmp")), [])
        self.place.ship(a="poison")
        self.assertEqual(self.place.run(*words)[:2], (1, f"no root cause root-differs {self.yes.split()[1]}\n"))
        self.assertTrue(os.path.exists(self.at("place", "out", "evidence.tar")))
        self.place.ship(a="A\n")
        write_program(self.at("place", "bin", "tar"), "#!/bin/sh\nexit 1\n")
        self.refuses('/out/evidence.tar" can\'t be read', 3, *words)
        os.remove(self.at("place", "bin", "tar"))
        stores.write_texts(self.at("place"), {"after": ["a", "other"]})
        self.place.ship(a="OTHER")
        self.refuses("the sources that Bazel read aren't those", 2, *words)
        stores.write_texts(self.at("place"), {"unlogged": [f"{BELOW}/c"]})
        self.refuses(f"{BELOW}/c", 2, *words)
        self.assertFalse(os.path.exists(self.at("place", "out", "evidence.tar")))

    def test_another_release(self):
        """As a false result in the cache made it: the record is what the commit comes to."""
        self.place.ship(a="poison")
        no = (1, f"no root cause root-differs {self.yes.split()[1]}\n")
        status, out, err = self.place.run(*self.place.words())
        self.assertEqual((status, out, err[:22]), (*no, 'note: "a" of the artif'))
        self.place.ship(a="A\n", c="more")
        self.assertEqual(self.place.run(*self.place.words())[:2], no)
        os.remove(self.at("place", "shipped", "c"))
        os.remove(self.at("place", "shipped", "b"))
        self.assertEqual(self.place.run(*self.place.words())[:2], no)

    def test_a_source_that_was_overwritten(self):
        """The working tree, the index, hooks, filters and settings of the repository and the user, and a moved branch, are for
        nothing."""
        stores.write_texts(self.at("place", "repository"), {"a": ["poison"]})
        other = self.place.commit_all()
        for name in ("filter.f.smudge", "core.fsmonitor", "core.sshCommand", "uploadpack.packObjectsHook"):
            self.place.git("config", name, f"touch {self.at('place')}/ran; echo poison")
        stores.write_texts(self.at("place", "repository", ".git", "info"), {"attributes": ["a filter=f"]})
        hook = self.at("place", "repository", ".git", "hooks", "post-checkout")
        write_program(hook, f"#!/bin/sh\ntouch {self.at('place')}/ran")
        self.assertEqual(self.place.run(*self.place.words()), (0, self.yes, ""))
        self.assertFalse(os.path.exists(self.at("place", "ran")))
        sources = self.place.lines("out/evidence/sources")
        self.place.ship(a="POISON\n")
        self.assertEqual(self.place.run(*self.place.words())[0], 1)
        self.place.run(*self.place.words(commit=other))
        self.assertNotEqual(self.place.lines("out/evidence/sources"), sources)

    def test_a_step_that_did_not_run_here(self):
        rows = [({"runner": it}, f"its runner is '{it}'") for it in ("remote", "remote cache hit", "")]
        for other, reason in [({"remoteCacheHit": True}, "it came from a cache"), *rows]:
            stores.write_texts(self.at("place"), {"spawn": [json.dumps(other)]})
            self.refuses(reason, 2, *self.place.words())

    def test_a_source_that_the_build_changed(self):
        """What was compiled isn't what the commit has: a command wrote it, or the log says so."""
        stores.write_texts(self.at("place"), {"after": ["a", "other"]})
        self.place.ship(a="OTHER")
        self.refuses(f"the sources that Bazel read aren't those of commit {self.place.commit}", 2, *self.place.words())

    def test_outputs_that_the_log_lacks(self):
        stores.write_texts(self.at("place"), {"unlogged": [f"{BELOW}/c"]})
        self.refuses(f"{BELOW}/c", 2, *self.place.words())

    def test_submodules(self):
        self.place.git("update-index", "--add", "--cacheinfo", f"160000,{self.place.commit},sub")
        self.place.git("commit", "--quiet", "--message", "it")
        self.refuses("has submodules", 2, *self.place.words(commit=self.place.git("rev-parse", "HEAD")))

    def test_no_workspace(self):
        self.refuses('"sub" of commit', 2, *self.place.words("--workspace", "sub"))

    def test_links_and_bits_of_the_release(self):
        os.symlink("a", self.at("place", "shipped", "link"))
        os.chmod(self.at("place", "shipped", "b"), 0o644)
        self.assertEqual(self.place.run(*self.place.words())[0], 1)
        self.assertEqual(os.readlink(self.at("place", "out", "shipped", "link")), "a")
        self.assertEqual(os.stat(self.at("place", "out", "shipped", "b")).st_mode & 0o777, 0o644)
        os.chmod(self.at("place", "shipped", "b"), 0o4755)
        self.refuses("setuid", 2, *self.place.words())


def has_namespace():
    """Whether this machine makes namespaces for this user."""
    words = ["unshare", "--user", "--map-root-user", "--net", "--mount", "true"]
    return bool(shutil.which("unshare")) and subprocess.run(words, stderr=subprocess.DEVNULL, check=False).returncode == 0
