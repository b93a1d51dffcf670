"""The list of what a release contains, as an SPDX 2.3 document: its files with their hashes, and what the library is compiled from."""
import datetime
import hashlib
import json
import uuid

import notices

LICENSE = "MIT OR Apache-2.0"


def package(identity, name, version, license_, **more):
    return {"SPDXID": f"SPDXRef-{identity}", "name": name, "versionInfo": version, "downloadLocation": "NOASSERTION",
            "filesAnalyzed": False, "licenseConcluded": "NOASSERTION", "licenseDeclared": license_, "copyrightText": "NOASSERTION", **more}


def ports(kit_name):
    """The crates of the kit that the library is compiled from. They are ports, so advisories on the Rust crates need not hold for them."""
    for port in notices.PORTS:
        comment = f"a crate of {kit_name} in Rattle, after the Rust crate {port.original} {port.version}"
        yield package(f"kit-{port.name.replace('_', '-')}", port.name, port.version, port.license, comment=comment)
    for name in notices.OWN:
        yield package(f"kit-{name.replace('_', '-')}", name, kit_name, "NOASSERTION", comment=f"a crate of {kit_name}")


def listed(files):
    """The files of a release."""
    for number, (name, contents) in enumerate(files.items(), 1):
        sums = [{"algorithm": kind.upper(), "checksumValue": hashlib.new(kind, contents).hexdigest()} for kind in ("sha1", "sha256")]
        yield {"SPDXID": f"SPDXRef-file-{number}", "fileName": f"./{name}", "checksums": sums, "licenseConcluded": "NOASSERTION",
               "licenseInfoInFiles": ["NOASSERTION"], "copyrightText": "NOASSERTION"}


def document(files, number, commit, date, kit_line):
    """The document: SPDX as JSON. `kit_line` is what `rt version` prints."""
    kit_name = (kit_line or "the Rattle kit").split()[0] if kit_line else "the Rattle kit"
    main = package("is-ice", "is_ice", number, LICENSE, sourceInfo=f"commit {commit}",
                   summary="A proved ICE agent (RFC 8445) for C, C++, Rust and Python")
    tool = package("kit", kit_name, kit_line or "unknown", "NOASSERTION", comment="the compiler and prover that built the library")
    parts, contents = list(ports(kit_name)), list(listed(files))
    relations = [("SPDXRef-DOCUMENT", "DESCRIBES", main["SPDXID"]), (tool["SPDXID"], "BUILD_TOOL_OF", main["SPDXID"])]
    relations += [(main["SPDXID"], "STATIC_LINK", part["SPDXID"]) for part in parts]
    relations += [(main["SPDXID"], "CONTAINS", file["SPDXID"]) for file in contents]
    sums = "".join(file["checksums"][1]["checksumValue"] for file in contents)
    created = datetime.datetime.fromtimestamp(date, datetime.timezone.utc).strftime("%Y-%m-%dT%H:%M:%SZ")
    whole = {
        "spdxVersion": "SPDX-2.3", "dataLicense": "CC0-1.0", "SPDXID": "SPDXRef-DOCUMENT", "name": f"is_ice-{number}",
        "documentNamespace": f"urn:uuid:{uuid.uuid5(uuid.NAMESPACE_OID, sums)}",
        "creationInfo": {"created": created, "creators": ["Tool: dist/run"]},
        "packages": [main, tool, *parts], "files": contents,
        "relationships": [{"spdxElementId": a, "relationshipType": kind, "relatedSpdxElement": b} for a, kind, b in relations],
    }
    return (json.dumps(whole, indent=1) + "\n").encode()
