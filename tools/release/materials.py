"""What a release is made of, as SPDX 2.3 has it: a bill of materials."""
from __future__ import annotations

import hashlib
import json
from collections.abc import Mapping
from datetime import datetime, timezone
from typing import Any

from tools.release.versions import version

NAMESPACE = "https://spdx.org/spdxdocs/rewind-{version}-{digest}"
NOTHING = "NOASSERTION"


def package(name: str, told: str, terms: str) -> dict[str, Any]:
    return {
        "SPDXID": f"SPDXRef-{name.replace('_', '-')}",
        "name": name,
        "versionInfo": told,
        "downloadLocation": NOTHING,
        "filesAnalyzed": False,
        "licenseConcluded": NOTHING,
        "licenseDeclared": terms,
        "copyrightText": NOTHING,
    }


def file_of(name: str, content: bytes) -> dict[str, Any]:
    return {
        "SPDXID": f"SPDXRef-File-{name.replace('_', '-')}",
        "fileName": f"./{name}",
        "checksums": [
            {"algorithm": "SHA1", "checksumValue": hashlib.sha1(content).hexdigest()},
            {"algorithm": "SHA256", "checksumValue": hashlib.sha256(content).hexdigest()},
        ],
        "licenseConcluded": NOTHING,
        "copyrightText": NOTHING,
    }


def relation(one: str, kind: str, other: str) -> dict[str, str]:
    return {"spdxElementId": one, "relationshipType": kind, "relatedSpdxElement": other}


def bill(files: Mapping[str, bytes], parts: Mapping[str, str], time: int) -> str:
    """The bill of the files of a release. `parts` are the names of what is linked into them, with their versions."""
    rewind = package("rewind", version(), "MIT")
    packages = [rewind, *(package(name, told, NOTHING) for name, told in sorted(parts.items()))]
    held = [file_of(name, content) for name, content in sorted(files.items())]
    digest = hashlib.sha256(b"".join(hashlib.sha256(files[name]).digest() for name in sorted(files))).hexdigest()[:16]
    created = datetime.fromtimestamp(time, timezone.utc).strftime("%Y-%m-%dT%H:%M:%SZ")
    told = {
        "spdxVersion": "SPDX-2.3",
        "dataLicense": "CC0-1.0",
        "SPDXID": "SPDXRef-DOCUMENT",
        "name": f"rewind-{version()}",
        "documentNamespace": NAMESPACE.format(version=version(), digest=digest),
        "creationInfo": {"created": created, "creators": ["Tool: rewind-make-dist"]},
        "packages": packages,
        "files": held,
        "relationships": [
            relation("SPDXRef-DOCUMENT", "DESCRIBES", rewind["SPDXID"]),
            *(relation(rewind["SPDXID"], "CONTAINS", it["SPDXID"]) for it in held),
            *(relation(rewind["SPDXID"], "DEPENDS_ON", it["SPDXID"]) for it in packages[1:]),
        ],
    }
    return json.dumps(told, indent=1) + "\n"
