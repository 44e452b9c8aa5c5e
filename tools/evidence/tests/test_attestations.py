"""Tests of `judge.py --attest`: each field against the published rules of in-toto's Statement v1 and ResourceDescriptor, and of
SLSA's verification summary v1, which are written down here; which the subjects are; and how other programs read and sign it."""

import hashlib
import json
import os
import re
import shutil
import subprocess

import archives
from shared import stores
from shared.crates import TOP
from shared.harness import PROGRAM
from shared.messages import Digest, File, result_message
from tests.bazel_case import contents
from tests.judge_case import CLAIM, EXAMPLE, FACTS, LINE, YES, JudgeCase

# RFC 3986 and RFC 3339, as far as is needed: a scheme with a rest of its characters; a time of UTC.
URI = re.compile(r"[A-Za-z][A-Za-z0-9+.-]*:[A-Za-z0-9._~:/?#\[\]@!$&'()*+,;=%-]+")
TIME = re.compile(r"[0-9]{4}-[01][0-9]-[0-3][0-9]T[0-2][0-9]:[0-5][0-9]:[0-6][0-9](\.[0-9]+)?Z")
# The levels of SLSA's build track; values of others don't begin with SLSA_.
LEVELS = ["SLSA_BUILD_LEVEL_UNEVALUATED", *(f"SLSA_BUILD_LEVEL_{it}" for it in range(4)), "FAILED"]
# The fields of a predicate: whether each is needed.
PREDICATE = {
    "verifier": True, "timeVerified": False, "resourceUri": True, "policy": True, "inputAttestations": False,
    "verificationResult": True, "verifiedLevels": True, "dependencyLevels": False, "slsaVersion": False,
}
DESCRIPTOR = {"name", "uri", "digest", "content", "downloadLocation", "mediaType", "annotations"}
# Reads a statement with Debian's securesystemslib, and hashes the shipped files by it.
READ_BY_DEBIAN = """
import json, sys
from securesystemslib import formats, hash
statement = json.load(open(sys.argv[1]))
for it in statement["subject"] + statement["predicate"]["inputAttestations"] + [statement["predicate"]["policy"]]:
    formats.HASHDICT_SCHEMA.check_match(it["digest"])
formats.ISO8601_DATETIME_SCHEMA.check_match(statement["predicate"]["timeVerified"])
formats.encode_canonical(statement)
for it in statement["subject"]:
    assert hash.digest_filename(sys.argv[2] + "/" + it["name"]).hexdigest() == it["digest"]["sha256"], it
"""


class AttestationCase(JudgeCase):
    def attest(self, evidence, line, *words):
        """The statement that is written where the program says so."""
        status = 0 if line.startswith("yes") else 1
        found, out, err = self.judge(evidence, "--attest", self.at("a.json"), *words, line=line, status=status)
        self.assertEqual((found, out, err), (status, f"{line}\n", ""))
        return json.loads(self.text("a.json"))

    def refuse(self, why, evidence, line, *words):
        stores.write_file(self.at("a.json"), b"earlier")
        status = 0 if line.startswith("yes") else 1
        found, out, err = self.judge(evidence, "--attest", self.at("a.json"), *words, line=line, status=status)
        self.assertEqual((found, out, err.count("\n"), err[:7]), (2, "", 1, "error: "), err)
        self.assertIn(why, err)
        self.assertFalse(os.path.exists(self.at("a.json")))

    def check_descriptor(self, it):
        """A ResourceDescriptor has a URI, a digest or a content, and nothing else than its fields; hashes are lower-case hex."""
        self.assertLessEqual(it.keys(), DESCRIPTOR)
        self.assertTrue(it.keys() & {"uri", "digest", "content"})
        for algorithm, value in it.get("digest", {}).items():
            self.assertRegex(algorithm, r"\A[a-zA-Z0-9_]+\Z")
            self.assertRegex(value, r"\A[0-9a-f]{64}\Z" if algorithm == "sha256" else r"\A[0-9a-f]+\Z")
        if "uri" in it:
            self.assertRegex(it["uri"], URI)

    def check_statement(self, statement):
        """Statement v1 has these four fields, and subjects with digests; names are told apart."""
        self.assertEqual(list(statement), ["_type", "subject", "predicateType", "predicate"])
        self.assertEqual(statement["_type"], "https://in-toto.io/Statement/v1")
        self.assertEqual(statement["predicateType"], "https://slsa.dev/verification_summary/v1")
        self.assertTrue(statement["subject"])
        for it in statement["subject"]:
            self.check_descriptor(it)
            self.assertTrue(it["digest"])
        names = [it["name"] for it in statement["subject"]]
        self.assertEqual(len(set(names)), len(names))
        self.check_predicate(statement["predicate"])

    def check_predicate(self, it):
        self.assertLessEqual({name for name, is_needed in PREDICATE.items() if is_needed}, it.keys())
        # (a field of another's begins with the name of who made it, and `_`)
        self.assertTrue(all(re.fullmatch("[A-Za-z0-9]+_[A-Za-z0-9]+", name) for name in it.keys() - PREDICATE.keys()))
        self.assertLessEqual(it["verifier"].keys(), {"id", "version"})
        self.assertRegex(it["verifier"]["id"], URI)
        self.assertTrue(all(isinstance(part, str) for part in it["verifier"].get("version", {}).values()))
        self.assertRegex(it["timeVerified"], rf"\A{TIME.pattern}\Z")
        self.assertRegex(it["resourceUri"], rf"\A(?:{URI.pattern})\Z")
        self.assertIn("uri", it["policy"])
        self.check_descriptor(it["policy"])
        for attestation in it["inputAttestations"]:
            self.check_descriptor(attestation)
            self.assertIn("digest", attestation)
        self.assertIn(it["verificationResult"], ("PASSED", "FAILED"))
        # (one level of a track at most, and FAILED where it failed)
        self.assertEqual(len(it["verifiedLevels"]), 1)
        self.assertIn(it["verifiedLevels"][0], LEVELS)
        self.assertEqual(it["verifiedLevels"] == ["FAILED"], it["verificationResult"] == "FAILED")


class Attestation(AttestationCase):
    def test_a_yes(self):
        self.ship({"result": "\n"})
        os.chmod(self.at("shipped", "result"), 0o644)
        statement = self.attest(EXAMPLE, YES, "--artifact", self.at("shipped"))
        self.check_statement(statement)
        self.assertEqual(statement["subject"], [{"name": "result", "digest": {"sha256": LINE}}])
        predicate = statement["predicate"]
        program = hashlib.sha256(stores.read_file(self.at("program"))).hexdigest()
        self.assertEqual(predicate["verifier"],
                         {"id": f"pkg:generic/buildcache@7.8?checksum=sha256:{program}", "version": {"buildcache": "7.8"}})
        self.assertEqual(predicate["resourceUri"], f"buildcache:{CLAIM}")
        self.assertEqual(predicate["verificationResult"], "PASSED")
        self.assertEqual(predicate["verifiedLevels"], ["SLSA_BUILD_LEVEL_UNEVALUATED"])
        self.assertEqual(predicate["buildcache_verdict"], FACTS)
        guarantees = hashlib.sha256(stores.read_file(os.path.join(TOP, "docs", "GUARANTEES.md"))).hexdigest()
        self.assertEqual(predicate["policy"],
                         {"uri": "pkg:generic/buildcache@7.8#docs/GUARANTEES.md", "digest": {"sha256": guarantees}})
        sums = {it["name"]: it["digest"]["sha256"] for it in predicate["inputAttestations"]}
        # (docs/VERIFY.md has the last)
        whole = {"verify_stages.py --digest": "3bec0ca6c3aa5628d0de3b915c45c51a91892ecf68b3f81eaddb147874ecf850"}
        names = ("plan", "record", "sources", "claim")
        files = {it: hashlib.sha256(stores.read_file(f"{EXAMPLE}/{it}")).hexdigest() for it in names}
        self.assertEqual(sums, {**files, **whole})

    def test_a_no(self):
        self.ship({"result": "other"})
        line = f"no root cause root-differs {CLAIM}"
        statement = self.attest(EXAMPLE, line, "--artifact", self.at("shipped"))
        self.check_statement(statement)
        self.assertEqual([it["name"] for it in statement["subject"]], ["result"])
        predicate = statement["predicate"]
        self.assertEqual((predicate["verificationResult"], predicate["verifiedLevels"]), ("FAILED", ["FAILED"]))
        self.assertEqual(predicate["buildcache_verdict"]["line"], line)

    def test_the_files_that_the_evidence_lists(self):
        evidence = self.example()
        self.assertEqual(self.attest(evidence, YES)["subject"], [{"name": "result", "digest": {"sha256": LINE}}])
        rows = {
            f"{LINE}  other\n": "has other files than those in which the build ends",
            f"{'0' * 64}  result\n": "has other files than those in which the build ends",
            f"{LINE}  result\n{LINE}  more\n": "has other files than those in which the build ends",
            "": "has other files than those in which the build ends", "x\n": "line 1 is no line of sha256sum",
        }
        for text, why in rows.items():
            stores.write_file(f"{evidence}/artifact.sums", text.encode())
            self.refuse(why, evidence, YES)
        os.remove(f"{evidence}/artifact.sums")
        self.refuse("give --artifact FOLDER", evidence, YES)
        self.refuse("give --artifact FOLDER", evidence, "no step gen cause do-not-cache")

    def test_a_store_that_lacks_what_the_files_are_held_against(self):
        evidence = self.example()
        for name in os.listdir(f"{evidence}/store/ac"):
            os.rename(f"{evidence}/store/ac/{name}", self.at(name))
            found = self.judge(evidence, "--attest", self.at("a.json"))
            if name.startswith("c6de"):
                self.assertEqual(found[:2], (2, ""))
                self.assertIn("what the build ends in can't be told: the store has no result of step use", found[2])
            else:
                self.assertEqual(found[:2], (0, f"{YES}\n"))
            os.rename(self.at(name), f"{evidence}/store/ac/{name}")

    def test_a_store_that_comes_to_something_else(self):
        """A yes that isn't of what the evidence has, as of a program that lies, is attested for no file."""
        evidence, nine = self.example(), Digest.of(b"123456789")
        stores.write_file(f"{evidence}/artifact.sums", f"{nine.hash}  result\n".encode())
        action = next(it for it in os.listdir(f"{evidence}/store/ac") if it.startswith("c6de"))
        stores.write_file(f"{evidence}/store/ac/{action}", result_message({"res": File(nine, False)}))
        self.refuse("what the build ends in can't be told: what the store has of it has another digest", evidence, YES)
        plan = stores.read_file(f"{evidence}/plan").replace(b"out use res", b"out use other")
        stores.write_file(f"{evidence}/plan", plan)
        self.refuse('nothing is at the origin of the line of "result"', evidence, YES)

    def test_links_are_no_subjects(self):
        os.makedirs(self.at("shipped"))
        os.symlink("x", self.at("shipped", "link"))
        self.refuse("what is shipped has no file", EXAMPLE, "no root cause do-not-cache".replace("root", "step gen"),
                    "--artifact", self.at("shipped"))

    def test_a_release_by_the_program(self):
        """One plan, stages and an archive have the same subjects; a folder with another file is a no."""
        if not os.path.exists(PROGRAM):
            self.is_unjudged = True
            return
        told = []
        for words in ([], ["--stages", "3"]):
            shutil.rmtree(self.at("asked"), ignore_errors=True)
            evidence = self.release(*words)
            with archives.written(self.at("e.tar")) as out:
                for name, content in sorted(contents(evidence).items(), key=lambda it: it[0] not in ("sources", "stages")):
                    out.add(name, content)
            for place in evidence, self.at("e.tar"):
                status, line, err = self.judged_by_program(place, "--attest", self.at("a.json"))
                self.assertEqual((status, line[:4], err), (0, "yes ", ""))
                statement = json.loads(self.text("a.json"))
                self.check_statement(statement)
                told.append(statement["subject"])
                names = [it["name"] for it in statement["predicate"]["inputAttestations"]]
                self.assertEqual("e.tar" in names, place.endswith(".tar"))
                self.assertEqual({"1/plan", "stages", "taken"} <= set(names), bool(words) and place == evidence)
        self.assertEqual([it["name"] for it in told[0]], ["hello", "list.txt"])
        self.assertTrue(all(it == told[0] for it in told))
        stores.write_file(f"{evidence}/artifact.sums", b"")
        self.assertEqual(self.judged_by_program(evidence, "--attest", self.at("a.json"))[0], 2)


class Read(AttestationCase):
    """By other programs, where they are installed."""

    def setUp(self):
        super().setUp()
        self.ship({"result": "\n"})
        os.chmod(self.at("shipped", "result"), 0o644)
        self.attest(EXAMPLE, YES, "--artifact", self.at("shipped"))

    def test_by_securesystemslib(self):
        python = "/usr/bin/python3"
        asked = [python, "-c", "import securesystemslib"]
        if os.path.exists(python) and subprocess.run(asked, capture_output=True, check=False).returncode == 0:
            words = [python, "-c", READ_BY_DEBIAN, self.at("a.json"), self.at("shipped")]
            ran = subprocess.run(words, capture_output=True, text=True, check=False)
            self.assertEqual((ran.returncode, ran.stderr), (0, ""))

    def test_signed_by_the_commands_of_the_page(self):
        page = stores.read_file(os.path.join(TOP, "tools", "evidence", "README.md")).decode()
        commands = re.findall(r"^\$ (openssl .*)$", page, re.M)
        self.assertEqual(len(commands), 4)
        if shutil.which("openssl"):
            os.rename(self.at("a.json"), self.at("verdict.intoto.json"))
            for is_changed in False, True:
                for it in commands[is_changed * 3:]:
                    ran = subprocess.run(["sh", "-c", it], cwd=self.folder, capture_output=True, text=True, check=False)
                    self.assertEqual(ran.returncode != 0, is_changed, ran.stderr)
                stores.write_file(self.at("verdict.intoto.json"), b"{}")
