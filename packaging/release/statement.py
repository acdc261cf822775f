"""What says what a release is: sums, the record of the proof, a list of parts, a signature over the sums, and how to look at them."""
import hashlib
import json
import pathlib
import re
import subprocess
import time
from typing import Dict, List

import source
from archives import Entry, Files
from source import TOP, Refusal, Source

TESTED_ONLY = "docs/PROVED.md, 'What is only tested'"
# the crates of the kit that the libraries and the program stand on
KIT_CRATES = ("sha2", "arrayvec", "hex", "clap")
SIGNED = """\
SHA256SUMS.cose is a COSE_Sign1 over SHA256SUMS, by the releaser's key. Whoever makes the release of this commit once more gets the same \
files, and this one too where OpenSSL is 3.2 or newer: an older one signs with a random number."""
GUIDE = """\
# cose {version}

From commit {commit}, proved by {kit}. `proof.json` has for each file what was proved; `cose.spdx.json` lists the parts.

## Is it this release?

{signed}

By sha256sum:

```sh
sha256sum -c SHA256SUMS
```

By OpenSSL, with the releaser's public key in `key.pem` (the Sig_structure of RFC 9052 section 4.4, and the signature in DER):

```sh
{{ printf '\\204\\152Signature1\\103\\241\\001\\046\\100{head}'; cat SHA256SUMS; }} >sums.tbs
r=$(tail -c 64 SHA256SUMS.cose | head -c 32 | xxd -p -c 32)
s=$(tail -c 32 SHA256SUMS.cose | xxd -p -c 32)
printf 'asn1=SEQUENCE:s\\n[s]\\nr=INTEGER:0x%s\\ns=INTEGER:0x%s\\n' "$r" "$s" >sums.conf
openssl asn1parse -genconf sums.conf -noout -out sums.der
openssl dgst -sha256 -verify key.pem -signature sums.der sums.tbs
```

By the program:

```sh
cosecmd-key --pem key.pem --alg ES256 >key.cbor
cosecmd-sign1 verify --keys-file key.cbor --payload-file SHA256SUMS <SHA256SUMS.cose
```

## How is it installed?

| File | Install | Use |
|---|---|---|
| `cosecmd_{version}_amd64.deb` | `apt install ./cosecmd_{version}_amd64.deb` | `cosecmd verify --keys-file KEY < MESSAGE` |
| `cosecmd-{version}-linux-x86_64.tar.gz` | `tar xf` it anywhere | `cosecmd-{version}/bin/cosecmd --version` |
| `libcose0_..`, `libcose-dev_..` | `apt install ./libcose0_.. ./libcose-dev_..` | `cc PROGRAM.c $(pkg-config --cflags --libs cose)` |
| `libcose-{version}.tar.gz` | `tar xf` it anywhere | `cc -Ilibcose-{version}/include PROGRAM.c libcose-{version}/lib/libcose.a` |
| `cose-{version}-py3-none-..whl` | `pip install` it | `python3 -m cose --help` |
| `cose-{version}.tgz` | `npm install` it | `import {{ load }} from "cose"` |
| `cose-{version}.crate` | `tar xf` it, `cargo add --path cose-{version}` | `cose::verify` |
| `cose-go-{version}.zip` | unpack it, `go mod edit -replace` | with `libcose-dev` |
| `cose-{version}.html` | open it | shows and verifies messages, without a network |
"""


def sums(files: Dict[str, bytes]) -> bytes:
    """The sum of each file, as `sha256sum -c` reads it."""
    return "".join(f"{hashlib.sha256(content).hexdigest()}  {name}\n" for name, content in sorted(files.items())).encode()


def crate_of(name: str) -> str:
    """The crate that a file of a release is made of, or nothing where it has no proved code."""
    if name.startswith("cosecmd"):
        return "cosecmd"
    return "" if name.startswith(("cose-rows", "cose-sources", "cose-go")) or ".tar.gz" in name and name.startswith("cose-") else "cose_c"


def proof(files: Dict[str, bytes], made_from: Source) -> bytes:
    """For each file: crate, commit, kit, logic, how many functions are proved, and what is only tested."""
    logic = source.MARK.search(source.proved(source.PROGRAM))[1].decode()
    below = {"cosecmd": crates_below("cosecmd"), "cose_c": crates_below("cose_c")}
    described = {}
    for name, content in sorted(files.items()):
        crate = crate_of(name)
        described[name] = {"sha256": hashlib.sha256(content).hexdigest()}
        if crate:
            count = sum(source.functions(it) for it in below[crate])
            described[name].update({"crate": crate, "crates": below[crate], "functions": count})
    whole = {"version": made_from.version, "commit": made_from.commit, "kit": made_from.kit, "logic": logic, "only tested": TESTED_ONLY, "files": described}
    return (json.dumps(whole, indent=2) + "\n").encode()


def crates_below(crate: str) -> List[str]:
    """A crate and those of the repository below it."""
    lines = dict(re.findall(r"^(\w+)(?: staticlib)?: (.*)$", (TOP / "crates.txt").read_text(), re.M))
    found: List[str] = []
    waiting = [crate]
    while waiting:
        name = waiting.pop()
        if name in lines and name not in found:
            found.append(name)
            waiting += lines[name].split()
    return sorted(found)


def parts(made_from: Source, files: Dict[str, bytes]) -> bytes:
    """The list of parts, by SPDX 2.3."""
    created = time.strftime("%Y-%m-%dT%H:%M:%SZ", time.gmtime(made_from.time))
    packages = [{"SPDXID": "SPDXRef-cose", "name": "cose", "versionInfo": made_from.version, "downloadLocation": "NOASSERTION", "licenseDeclared": "Apache-2.0 OR MIT"}]
    for name in KIT_CRATES:
        packages.append({"SPDXID": f"SPDXRef-{name}", "name": name, "versionInfo": made_from.kit, "downloadLocation": "NOASSERTION", "licenseDeclared": "NOASSERTION"})
    relations = [{"spdxElementId": "SPDXRef-cose", "relationshipType": "DEPENDS_ON", "relatedSpdxElement": f"SPDXRef-{name}"} for name in KIT_CRATES]
    relations.append({"spdxElementId": "SPDXRef-DOCUMENT", "relationshipType": "DESCRIBES", "relatedSpdxElement": "SPDXRef-cose"})
    listed = [
        {"SPDXID": f"SPDXRef-File-{number}", "fileName": f"./{name}", "checksums": [{"algorithm": "SHA256", "checksumValue": hashlib.sha256(content).hexdigest()}]}
        for number, (name, content) in enumerate(sorted(files.items()))
    ]
    whole = {
        "spdxVersion": "SPDX-2.3",
        "dataLicense": "CC0-1.0",
        "SPDXID": "SPDXRef-DOCUMENT",
        "name": f"cose-{made_from.version}",
        "documentNamespace": f"urn:cose:{made_from.commit}",
        "creationInfo": {"created": created, "creators": ["Tool: release"]},
        "packages": packages,
        "files": listed,
        "relationships": relations,
    }
    return (json.dumps(whole, indent=2) + "\n").encode()


def head(major: int, value: int) -> bytes:
    """The shortest head of an item (RFC 8949 section 3)."""
    for width, most in ((0, 24), (1, 1 << 8), (2, 1 << 16), (4, 1 << 32)):
        if value < most:
            return bytes([major << 5 | value]) if width == 0 else bytes([major << 5 | {1: 24, 2: 25, 4: 26}[width]]) + value.to_bytes(width, "big")
    raise ValueError(value)


def signature(payload: bytes, key: pathlib.Path) -> bytes:
    """A COSE_Sign1 over the payload, which is detached (RFC 9052 section 4.2), by OpenSSL with a key on P-256: ES256."""
    protected = bytes([0xA1, 0x01, 0x26])
    structure = head(4, 4) + head(3, 10) + b"Signature1" + head(2, len(protected)) + protected + head(2, 0) + head(2, len(payload)) + payload
    # (by RFC 6979 the same bytes each time; OpenSSL has that from version 3.2 on)
    for nonce in (["-sigopt", "nonce-type:1"], []):
        ended = subprocess.run(["openssl", "dgst", "-sha256", *nonce, "-sign", str(key)], input=structure, capture_output=True)
        if ended.returncode == 0:
            break
    else:
        raise Refusal(f"openssl can't sign with {key}: {ended.stderr.decode(errors='replace').strip()}")
    numbers = re.match(rb"\x30.\x02(.)", ended.stdout, re.S)
    length = numbers[1][0]
    first, rest = ended.stdout[4 : 4 + length], ended.stdout[4 + length :]
    second = rest[2 : 2 + rest[1]]
    both = b"".join(number.lstrip(b"\0").rjust(32, b"\0") for number in (first, second))
    return bytes([0xD2]) + head(4, 4) + head(2, len(protected)) + protected + bytes([0xA0, 0xF6]) + head(2, len(both)) + both


def write(files: Dict[str, bytes], made_from: Source, key: "pathlib.Path | None") -> Files:
    """All that says what these files are."""
    said = dict(files)
    said["proof.json"] = proof(files, made_from)
    said["cose.spdx.json"] = parts(made_from, files)
    signed = SIGNED if key else "It is unsigned."
    # (so many bytes have the sums of these names, whatever they are)
    length = len(sums({**said, "RELEASE.md": b""}))
    octal = "".join(f"\\{byte:03o}" for byte in head(2, length))
    values = {"version": made_from.version, "commit": made_from.commit, "kit": made_from.kit, "signed": signed, "head": octal}
    said["RELEASE.md"] = GUIDE.format(**values).encode()
    listed = sums(said)
    made = {name: Entry(said[name]) for name in said if name not in files}
    made["SHA256SUMS"] = Entry(listed)
    if key:
        made["SHA256SUMS.cose"] = Entry(signature(listed, key))
    return made
