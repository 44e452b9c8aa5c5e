"""Tests of --outputs-on-disk of bazel_plan.py."""

import os
import shutil

from tests.bazel_case import Case, kept_log
from tests.spawns import as_bytes, log, spawn

BIN = "bazel-out/k8-fastbuild/bin"


class OnDisk(Case):
    BUILD = log(
        spawn({}, [f"{BIN}/mid", f"{BIN}/midtree"], {f"{BIN}/mid": "m", f"{BIN}/midtree/a": "1"}),
        spawn({f"{BIN}/mid": "m", f"{BIN}/midtree/a": "1"}, [f"{BIN}/rel/f", f"{BIN}/rel/t", f"{BIN}/rel/l"],
              {f"{BIN}/rel/f": "f", f"{BIN}/rel/t/a": "1", f"{BIN}/rel/t/d/b": "2"}),
        spawn({}, [f"{BIN}/other"]),
    ).replace(f'"path": "{BIN}/rel/f"', f'"path": "{BIN}/rel/l", "symlinkTargetPath": "f"}}, {{"path": "{BIN}/rel/f"')
    WORDS = ["--outputs", f"{BIN}/rel/*", "--below", f"{BIN}/rel"]

    def place(self, *names):
        return self.at("disk", BIN, *names)

    def write(self, path, content):
        os.makedirs(os.path.dirname(self.place(path)), exist_ok=True)
        with open(self.place(path), "w", encoding="utf-8") as out:
            out.write(content)

    def lay_out(self):
        shutil.rmtree(self.at("disk"), ignore_errors=True)
        for path, content in {"mid": "m", "midtree/a": "1", "rel/f": "f", "rel/t/a": "1", "rel/t/d/b": "2"}.items():
            self.write(path, content)
        os.symlink("f", self.place("rel/l"))

    def test_outputs_as_the_log_has_them(self):
        self.lay_out()
        os.mkdir(self.place("midtree", "empty"))
        os.rename(self.place("rel/t/a"), self.place("moved"))
        os.symlink(self.place("moved"), self.place("rel/t/a"))
        os.rename(self.place("midtree"), self.at("moved"))
        os.symlink(self.at("moved"), self.place("midtree"))
        # (of another build, or of no command, and not of the artifact)
        self.write("other", "x")
        os.symlink("..", self.place("up"))
        self.write("written", "x")
        self.turn(self.BUILD, *self.WORDS, "--outputs-on-disk", self.at("disk"))
        self.judge("yes ")

    def test_each_difference(self):
        rel = f"{BIN}/rel"
        rows = [
            (f'it made "{BIN}/mid" with the digest ', lambda: self.write("mid", "x")),
            (f'it made the file "{rel}/f", and on the disk there is none', lambda: os.remove(self.place("rel/f"))),
            (f'it made the file "{rel}/t/a", and on the disk there is none', lambda: os.remove(self.place("rel/t/a"))),
            (f'on the disk its output has "{rel}/t/a/x" (file), which', lambda: (os.remove(self.place("rel/t/a")), self.write("rel/t/a/x", ""))),
            (f'on the disk its output has "{rel}/t/new" (file), which the log lacks\n', lambda: self.write("rel/t/new", "")),
            (f'on the disk its output has "{rel}/t/none" (empty folder), which the log lacks\n', lambda: os.mkdir(self.place("rel/t/none"))),
            (f'on the disk its output has "{rel}/t/z" (neither file nor folder), which', lambda: os.symlink("nowhere", self.place("rel/t/z"))),
            (f'on the disk its output has "{rel}/t/e/b" (file), which the log lacks: "{rel}/t/e" is a link to a folder, and Bazel 4.2.3 logs only',
             lambda: os.symlink("d", self.place("rel/t/e"))),
            (f'it made the folder "{BIN}/midtree", and on the disk there is none', lambda: shutil.rmtree(self.place("midtree"))),
            (f'on the disk its output has "{BIN}/midtree/b" (file), which the log lacks', lambda: self.write("midtree/b", "")),
            (f'it made "{rel}/l", a link to "f", and on the disk there is no such link', lambda: (os.remove(self.place("rel/l")), self.write("rel/l", "f"))),
            (f'"{rel}/written" on the disk has a pattern, and no spawn of the log made it: either', lambda: self.write("rel/written", "")),
            (f'"{rel}/d/written" on the disk has a pattern, and no spawn', lambda: self.write("rel/d/written", "")),
            (f'"{rel}/to/a" on the disk has a pattern, and no spawn', lambda: os.symlink("t", self.place("rel/to"))),
            (f'on the disk its output has "{rel}/t/d/up" (link to a folder above it), which', lambda: os.symlink("..", self.place("rel/t/d/up"))),
            (f'"{rel}/up" on the disk has a pattern, and no spawn', lambda: os.symlink(".", self.place("rel/up"))),
        ]
        for reason, spoil in rows:
            with self.subTest(reason):
                self.lay_out()
                spoil()
                self.refuse(reason, self.BUILD, *self.WORDS, "--outputs-on-disk", self.at("disk"))

    def test_a_pattern_that_is_a_path_on_the_disk_alone(self):
        text = log(spawn({}, [f"{BIN}/i.js"]))
        self.write("i.js", f"{BIN}/i.js")
        words = ["--outputs", f"{BIN}/[id].js", "--outputs-on-disk", self.at("disk")]
        self.turn(text, *words)
        self.write("[id].js", "")
        self.refuse(f'"{BIN}/[id].js" on the disk has a pattern, and no spawn', text, *words)

    def test_a_path_that_is_an_output_is_looked_for_nowhere_else(self):
        self.lay_out()
        self.write("rel/written", "x")
        words = ["--outputs-on-disk", self.at("disk"), "--outputs", f"{BIN}/rel/f"]
        self.turn(self.BUILD, *words)
        self.turn(self.BUILD, *words, f"{BIN}/rel/[l]")
        self.refuse(f'"{BIN}/rel/written" on the disk has a pattern', self.BUILD, *words, f"{BIN}/rel/[lw]*")

    def test_a_folder_of_which_files_were_made(self):
        self.lay_out()
        self.write("x/rel", f"{BIN}/x/rel")
        text = self.BUILD + log(spawn({}, [f"{BIN}/x/rel"]))
        self.turn(text, "--outputs", f"{BIN}*/rel", "--outputs-on-disk", self.at("disk"))
        self.write("rel/written", "")
        self.refuse(f'"{BIN}/rel/written" on the disk has a pattern', text, "--outputs", f"{BIN}*/rel", "--outputs-on-disk", self.at("disk"))

    def test_a_folder_on_the_disk_alone_that_has_a_pattern(self):
        self.lay_out()
        words = ["--outputs", f"{BIN}/*/t", "--outputs-on-disk", self.at("disk")]
        self.turn(self.BUILD, *words)
        self.write("more/t/d/x", "")
        self.refuse(f'"{BIN}/more/t/d/x" on the disk has a pattern, and no spawn', self.BUILD, *words)

    def test_a_link_to_a_folder_as_bazel_logs_and_makes_it(self):
        tree = self.place("t/linkdir")
        os.makedirs(f"{tree}/v1")
        os.makedirs(f"{tree}/zz")
        for path, content in {"v1/file": "lib\n", "zz/z": "z\n", "a": "a\n"}.items():
            self.write(f"t/linkdir/{path}", content)
        os.symlink("v1", f"{tree}/current")
        os.symlink("../a", f"{tree}/zz/up")
        words = ["--outputs", f"{BIN}/t/linkdir"]
        self.turn(kept_log("linkdir.json"), *words)
        self.judge("yes ")
        reason = f'has "{BIN}/t/linkdir/current/file" (file), which the log lacks: "{BIN}/t/linkdir/current" is a link to a folder'
        self.refuse(reason, kept_log("linkdir.json"), *words, "--outputs-on-disk", self.at("disk"))

    def test_names_beyond_ascii(self):
        self.write("ü", "1")
        text = log(spawn({}, [as_bytes(f"{BIN}/ü")], {as_bytes(f"{BIN}/ü"): "1"}))
        words = ["--latin1-names", "--outputs", f"{BIN}/*", "--outputs-on-disk", self.at("disk")]
        self.turn(text, *words)
        os.rename(self.place("ü"), os.fsencode(self.place("")) + b"\xfc")
        self.refuse(f'it made the file "{BIN}/ü", and on the disk there is none', text, *words)
        self.write("ü", "1")
        self.refuse(f'"{BIN}/\\udcfc" on the disk has a pattern', text, *words)
