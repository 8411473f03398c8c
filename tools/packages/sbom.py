"""What a release is made of, as a document of SPDX 2.3."""

import json
import time
from collections.abc import Iterable, Mapping
from dataclasses import dataclass

from .linked import OWN, Crate

NONE = "NOASSERTION"
NAMESPACE = "https://spdx.org/spdxdocs/pgsub"


@dataclass(frozen=True)
class Release:
    """A release: what it is of, its files with their SHA-256 sums, and the packages that it needs,
    each with the versions that do."""

    version: str
    commit: str
    kit: str
    time: int
    sums: Mapping[str, str]
    needs: Mapping[str, str]


def package(
    of: str, name: str, version: str, licence: str = NONE, **more: object
) -> dict[str, object]:
    """A package as SPDX has it."""
    return {
        "SPDXID": f"SPDXRef-{of}-{name.replace('_', '-')}",
        "name": name,
        "versionInfo": version,
        "downloadLocation": NONE,
        "filesAnalyzed": False,
        "licenseConcluded": NONE,
        "licenseDeclared": licence,
        "copyrightText": NONE,
        **more,
    }


def of_crate(crate: Crate, kit: str) -> dict[str, object]:
    port = f"A port of the Rust crate {crate.ported[0]} {crate.ported[1]}." if crate.ported else ""
    whose = "; ".join(crate.holders) or NONE
    return package(
        "kit",
        crate.name,
        kit,
        crate.licence,
        copyrightText=whose,
        supplier=NONE,
        **({"comment": port} if port else {}),
    )


def of_debian(name: str, versions: str) -> dict[str, object]:
    where = {
        "referenceCategory": "PACKAGE-MANAGER",
        "referenceType": "purl",
        "referenceLocator": f"pkg:deb/debian/{name}",
    }
    return package("debian", name, versions, externalRefs=[where])


def of_file(name: str, sum: str) -> dict[str, object]:
    return {
        "SPDXID": f"SPDXRef-file-{name.replace('_', '-').replace('+', '-')}",
        "fileName": f"./{name}",
        "copyrightText": NONE,
        "licenseConcluded": NONE,
        "checksums": [{"algorithm": "SHA256", "checksumValue": sum}],
    }


def relations(
    root: object, kind: str, others: Iterable[Mapping[str, object]]
) -> list[dict[str, object]]:
    return [
        {"spdxElementId": root, "relationshipType": kind, "relatedSpdxElement": it["SPDXID"]}
        for it in others
    ]


def document(release: Release, crates: Iterable[Crate]) -> str:
    """The document. The same release makes the same bytes."""
    about = {"primaryPackagePurpose": "APPLICATION", "sourceInfo": f"commit {release.commit}"}
    root = package("release", "pgsub", release.version, OWN, **about)
    kit = package("tool", "rattle", release.kit)
    linked = [of_crate(it, release.kit) for it in crates]
    needed = [of_debian(name, versions) for name, versions in release.needs.items()]
    files = [of_file(name, sum) for name, sum in release.sums.items()]
    return (
        json.dumps(
            {
                "spdxVersion": "SPDX-2.3",
                "dataLicense": "CC0-1.0",
                "SPDXID": "SPDXRef-DOCUMENT",
                "name": f"pgsub-{release.version}",
                "documentNamespace": f"{NAMESPACE}-{release.version}-{release.commit}",
                "creationInfo": {
                    "created": time.strftime("%Y-%m-%dT%H:%M:%SZ", time.gmtime(release.time)),
                    "creators": ["Tool: pgsub-tools-release"],
                },
                "packages": [root, kit, *linked, *needed],
                "files": files,
                "relationships": [
                    *relations("SPDXRef-DOCUMENT", "DESCRIBES", [root]),
                    *relations(root["SPDXID"], "STATIC_LINK", linked),
                    *relations(root["SPDXID"], "DEPENDS_ON", needed),
                    *relations(kit["SPDXID"], "BUILD_TOOL_OF", [root]),
                    *relations(root["SPDXID"], "CONTAINS", files),
                ],
            },
            indent=1,
            ensure_ascii=False,
        )
        + "\n"
    )
