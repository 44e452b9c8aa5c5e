"""A verdict as an in-toto Statement v1 with SLSA's verification summary v1, unsigned. What each field has is told in
tools/evidence/README.md."""

import json
import os

from roots import hash_of_file
from shared.command_line import Refused
from shared.crates import TOP

STATEMENT = "https://in-toto.io/Statement/v1"
SUMMARY = "https://slsa.dev/verification_summary/v1"
# What a yes means; the policy of a verdict is this page.
POLICY = "docs/GUARANTEES.md"
# Whether a file was built on a platform that SLSA trusts isn't what the program decides.
LEVELS = {True: ["SLSA_BUILD_LEVEL_UNEVALUATED"], False: ["FAILED"]}


def descriptor(name, sha256):
    """A ResourceDescriptor of something with a SHA-256."""
    return {"name": name, "digest": {"sha256": sha256}}


def package(version):
    """The program as a package URL."""
    return f"pkg:generic/buildcache@{version}"


def statement_of(judged):
    """The Statement, as an object of JSON."""
    verdict, program = judged.verdict, judged.program
    predicate = {
        "verifier": {
            "id": f"{package(program.version)}?checksum=sha256:{program.sha256}",
            "version": {"buildcache": program.version},
        },
        "timeVerified": judged.time,
        "resourceUri": f"buildcache:{judged.claim}",
        "policy": {
            "uri": f"{package(program.version)}#{POLICY}",
            "digest": {"sha256": hash_of_file(os.path.join(TOP, POLICY))},
        },
        "inputAttestations": [descriptor(name, it) for name, it in judged.sums.items()],
        "verificationResult": "PASSED" if verdict.is_yes else "FAILED",
        "verifiedLevels": LEVELS[verdict.is_yes],
        "buildcache_verdict": judged.facts(),
    }
    subjects = [descriptor(name, it) for name, it in sorted(judged.shipped[0].items())]
    return {"_type": STATEMENT, "subject": subjects, "predicateType": SUMMARY, "predicate": predicate}


def text_of(judged):
    """The text of a Statement; one without subjects is refused."""
    shipped, why = judged.shipped
    if shipped is None:
        raise Refused(f"--attest has no subjects: {why}; give --artifact FOLDER")
    if not shipped:
        raise Refused("--attest has no subjects: what is shipped has no file")
    return json.dumps(statement_of(judged), indent=2) + "\n"
