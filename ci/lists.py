#!/usr/bin/env python3
"""The places that list every algorithm, claim, reason, option or export, and whether each list is complete.

usage: ci/lists.py KIND      KIND: algorithm, claim, reason, option, export: prints the places that a new one has to go into

ci/documents compares: each place has each member of its kind, and the checklist of CONTRIBUTING.md for the kind names each place.
The members are those of the source. A paragraph that names three algorithms for signatures names all, wherever it is. The hints of
the program name options that there are (ci/option_hints.py).
"""
import re
import subprocess
import sys
import typing

sys.dont_write_bytecode = True
import edge_source as source  # noqa: E402 (beside this file)
import option_hints  # noqa: E402
import option_rows  # noqa: E402

TOP = source.TOP


class Member(typing.NamedTuple):
    """An algorithm, a claim, a reason, an option or an export."""

    name: str
    number: int = 0
    variant: str = ""


class Places(typing.NamedTuple):
    """Files, or patterns of several that are one place, which name each member of a kind in a form, but for some."""

    kind: str
    form: typing.Callable
    files: str
    without: str = ""


def whole(text):
    """A text that is no part of a word or of a greater number."""
    return rf"(?<![\w-]){re.escape(text)}(?![\w-])"


def of_name(it):
    return whole(it.name)


def in_capitals(it):
    return rf"(?:\b|_){source.underscored(it.name).upper()}\b"


def of_variant(it):
    return rf"\b{it.variant}\b"


def of_row(it):
    """A field of a row that has the number."""
    return rf'"\w+": "?{it.number}(?![0-9])'


def of_constant(it):
    """A number that a name or a key of a table has."""
    return rf"(?m)(?:= |^    ){it.number}(?:$|: )"


def of_tuple(it):
    """A number of a list of Python, or the first of a tuple in one."""
    return rf"ALGORITHMS = [\[(][^=\n]*(?<![\d-]){it.number}[,)]"


def of_help(it):
    """A number that a help has in brackets."""
    return rf"\({it.number}\)"


def of_sentence(it):
    """The numbers of all algorithms for MACs, in a sentence."""
    *numbers, last = [str(it.number) for it in members("algorithm for MACs")]
    return rf"\b{', '.join(numbers)} or {last}\b"


def of_option(it):
    return rf'--{it.name}(?![\w-])|"{it.name}"'


def of_word(it):
    """A word of a command line in quotes, by itself or after an option."""
    return rf'["=]{it.name}"'


def of_claim(it):
    """A claim's name, as a part of a name too: `cnf_kid`, `auds`."""
    return rf"(?<![A-Za-z]){it.name}s?(?![A-Za-z])"


def of_call(it):
    """A call's name without what the names of its sizes have in addition; some languages put that before it."""
    return rf"(?:\b|_){it.name}\b"


def of_short_call(it):
    """An export without what the names of all begin with."""
    return whole(re.sub("^cose_", "", it.name))


def algorithms():
    return [Member(it.text.split(":")[0], it.number, it.name) for it in source.algorithms()]


def claims():
    known = (TOP / "crates/cose_cwt/src/claims/known.rt").read_text()
    return [Member(it) for it in re.findall(r"^    pub (\w+): Option<ItemRef", known, re.M)]


def options(is_one=lambda command, option: True):
    """Those of the program's options of which this holds with one of their commands."""
    found = {it.name for command in option_rows.commands() for it in command.options if is_one(command.name, it)}
    return [Member(it) for it in sorted(found)]


def values():
    """The values of the options that have a few."""
    return [Member(it) for it in sorted({value for rows in option_rows.by_name().values() for row in rows for value in row.values})]


def members(kind):
    """The members of a kind of list."""
    return {
        "algorithm": algorithms,
        "algorithm for signatures": lambda: [it for it in algorithms() if it.number < 0],
        "algorithm for MACs": lambda: [it for it in algorithms() if it.number > 0],
        "claim": claims,
        "reason": lambda: [Member(it.name, it.number) for it in source.reasons()],
        "option": options,
        "option of digest": lambda: options(lambda command, _: command == "digest"),
        "option in hexadecimal": lambda: options(lambda _, it: it.argument == "HEX"),
        "option with a text or a value": lambda: options(lambda _, it: it.argument and not it.range),
        "value of an option": values,
        "export": lambda: [Member(it.name) for it in source.exports()],
        "call": lambda: [Member(it) for it in sorted({re.sub("^cose_(edge_)?((large|device)_)?", "", it.name) for it in source.exports()})],
    }[kind]()


PLACES = {
    "algorithm": [
        Places(
            "algorithm",
            of_variant,
            "crates/cose_head/src/algorithm.rt crates/cose_head/specs/Algorithm.antt "
            "crates/cose_head/proofs/WorkedAlgorithms.antt",
        ),
        Places("algorithm", of_row, "rows/algorithms.json rows/choices.json rows/messages.json"),
        Places("algorithm", of_constant, "ci/second_reading.py bindings/python/src/cose/_arguments.py bindings/go/algorithms.go"),
        Places("algorithm", of_tuple, "ci/row_end_table.py"),
        Places("algorithm", of_name, "examples/cose_key web/registry.js"),
        Places(
            "algorithm for signatures",
            of_name,
            "README.md docs/COMMANDS.md docs/DECISIONS.md docs/USING.md docs/PYTHON.md "
            "crates/cose_commands/src/commands.rt crates/cosecmd/src/main.rt crates/cose_mac/src/lib.rt crates/cose_msg/src/lib.rt "
            "crates/cose_cwt/src/lib.rt bindings/rust/src/lib.rs bindings/rust/src/sign_input.rs "
            "bindings/python/src/cose/_arguments.py bindings/python/src/cose/signatures.py bindings/go/cose.go",
        ),
        Places("algorithm for signatures", of_row, "rows/signed.json"),
        Places("algorithm for MACs", of_row, "rows/macs.json rows/made.json"),
        Places("algorithm for MACs", of_tuple, "ci/mac_messages.py"),
        Places("algorithm for MACs", of_help, "crates/cose_commands/src/commands.rt docs/COMMANDS.md"),
        Places("algorithm for MACs", of_sentence, "crates/cose_c/src/make.rt include/cose.h bindings/python/src/cose/making.py"),
        Places("algorithm for MACs", of_name, "bindings/rust/src/make.rs"),
    ],
    "claim": [
        Places(
            "claim",
            of_claim,
            "crates/cose_cwt/src/claims.rt crates/cose_cwt/src/claims/known.rt crates/cose_tests/src/tests/debug.rt "
            "crates/cose_cwt/specs/Claims.antt crates/cose_cwt/specs/Claims/Labels.antt "
            "crates/cose_cwt/specs/Claims/Form.antt crates/cose_cwt/specs/Claims/Known.antt "
            "crates/cose_cwt/specs/Claims/Known/View.antt crates/cose_cwt/proofs/KnownClaims.antt "
            "crates/cose_answers/src/answers/cwt.rt crates/cose_answers/specs/Admitted.antt crates/cose_answers/proofs/WorkedAdmitted.antt "
            "crates/cosecmd/proofs/WorkedRequirements.antt crates/cose_c/src/cose_claims.rt crates/cose_c/src/claims.rt "
            "crates/cose_c/specs/CoseClaims.antt crates/cose_c/specs/Claims.antt crates/cose_c/proofs/ClaimsForC.antt "
            "include/cose.h examples/c/gateway.c bindings/rust/src/claims.rs bindings/python/src/cose/tokens.py "
            "bindings/python/src/cose/__main__.py bindings/js/cose.js bindings/go/claims.go web/registry.js rows/claims.json "
            "rows/tokens.json rows/README.md crates/conformance/src/claims.rt bindings/python/tests/row_answers.py "
            "bindings/js/tests/rows.mjs bindings/go/rows_test.go ci/rows ci/second_reading.py ci/second_program.py "
            "docs/COMMANDS.md docs/PROVED.md docs/USING.md",
        ),
        Places("claim", of_claim, "bindings/python/extension/calls.c"),
        Places("claim", of_claim, "bindings/python/src/cose/_fields.py", "aud cnf"),
        Places("claim", in_capitals, "crates/cose_cwt/src/claims/labels.rt crates/cose_cwt/src/claims/form.rt"),
        Places(
            "claim",
            of_claim,
            "crates/cose_cwt/src/requirements.rt crates/cose_cwt/specs/Requirements.antt crates/cose_commands/src/commands.rt "
            "rows/requirements.json",
            "cnf",
        ),
    ],
    "reason": [
        Places(
            "reason",
            of_name,
            "crates/cose_head/src/reason.rt crates/cose_head/specs/Reason.antt docs/REASONS.md bindings/rust/src/reason.rs "
            "bindings/python/src/cose/reasons.py bindings/js/reasons.js bindings/go/reasons.go web/sentences.js "
            "ci/second_reading.py rows/*.json",
        ),
        Places("reason", in_capitals, "include/cose.h"),
    ],
    "option": [
        # (docs/COMMANDS.md is made of the rows by ci/option_tables; the second reading opens no file; a row makes none)
        Places("option", of_word, "crates/cosecmd/specs/*.antt"),
        Places("value of an option", of_word, "crates/cosecmd/specs/*.antt", "exp nbf iat cti"),
        Places("value of an option", of_word, "rows/commands.json"),
        Places("option", of_option, "rows/commands.json"),
        Places("option", of_option, "ci/second_program.py", "key-file keys-file payload-file payload-length payload-to"),
        Places(
            "option with a text or a value",
            of_option,
            "ci/generated_cases.py",
            "key-file keys-file payload-file payload-to input limits",
        ),
        Places("option of digest", of_option, "examples/verify_sign1"),
        Places("option in hexadecimal", of_option, "crates/cose_hints/src/argument_advice.rt"),
    ],
    "export": [
        Places("export", of_name, "include/cose.h bindings/rust/src/raw.rs"),
        Places("export", of_short_call, "bindings/python/src/cose/_library.py"),
        # (what a layer doesn't offer; in JavaScript also what it calls by a name that it composes)
        Places("call", of_call, "bindings/rust/src/[!r]*.rs"),
        Places("call", of_call, "bindings/python/src/cose/[!_]*.py", "next_audience verdict_for version wipe_bytes"),
        Places("call", of_call, "bindings/go/*.[gh]*", "item_at next_audience verdict_for version"),
        Places(
            "call",
            of_call,
            "bindings/js/[ct]*.js",
            "item_at next_audience verdict_for version maker_size maker_align signer_size signer_align parameter_named table_size "
            "table_align verifier_size verifier_align table_verify table_verify_cwt verify_detached open_detached open_table_detached "
            "open_elsewhere_detached",
        ),
    ],
}
# where three algorithms for signatures are named and not all: those that a JWK can name (RFC 7518), and those that a version brought
SOME = ("CHANGELOG.md", "examples/cose_key", "web/keys.js", "bindings/python/src/cose/key_forms.py")


def faults_of(places, pattern):
    """What is wrong with one of the places: members that are missing, and exceptions that are none."""
    paths, left_out = sorted(TOP.glob(pattern)), places.without.split()
    text = "".join(path.read_text() for path in paths)
    for it in members(places.kind):
        if (it.name in left_out) == bool(re.search(places.form(it), text)):
            yield f"{pattern}: {'the exception' if it.name in left_out else 'no'} {places.kind} {it.name}"
    unknown = set(left_out) - {it.name for it in members(places.kind)}
    yield from (f"{pattern}: no {places.kind} is {it}" for it in sorted(unknown))


def faults_of_texts():
    """Paragraphs that name some of the algorithms for signatures, and not all."""
    names = [it.name for it in members("algorithm for signatures")]
    listing = subprocess.run(["git", "ls-files"], cwd=TOP, capture_output=True, check=True, text=True).stdout.splitlines()
    for path in listing:
        if path in SOME or path.endswith((".json", ".antt", ".edit", ".png")) or not (TOP / path).is_file():
            continue
        for text in re.split(r"\n\W*\n", (TOP / path).read_bytes().decode(errors="replace")):
            found = [it for it in names if re.search(rf"\b{it}\b", text, re.I)]
            if 3 <= len(found) < len(names):
                yield f"{path}: it names {', '.join(found)}, and not {', '.join(sorted(set(names) - set(found)))}"


def sections():
    """The checklists of CONTRIBUTING.md: by kind, what they have in backticks."""
    parts = re.split(r"^#+ An? (?:new )?(\w+)$", (TOP / "CONTRIBUTING.md").read_text(), flags=re.M)
    texts = dict(zip(parts[1::2], (re.split(r"^#", it, flags=re.M)[0] for it in parts[2::2])))
    return {kind: re.findall(r"`([^`\n]+)`", text) for kind, text in texts.items()}


def each_place():
    """The kind of its checklist, what the place is one of, and its pattern."""
    return ((name, places, it) for name, lists in PLACES.items() for places in lists for it in places.files.split())


def faults():
    """What is wrong with the lists and the checklists."""
    checklists = sections()
    for name, places, pattern in each_place():
        yield from faults_of(places, pattern)
        if not any(f"/{pattern}".endswith(f"/{it}") for it in checklists.get(name, [])):
            yield f"CONTRIBUTING.md: the checklist of a new {name} doesn't name {pattern}"
    yield from faults_of_texts()
    yield from option_hints.faults()


def main():
    if len(sys.argv) != 2 or sys.argv[1] not in PLACES:
        sys.exit(__doc__.split("\n\n")[1])
    for name, places, pattern in each_place():
        if name == sys.argv[1]:
            print(f"{pattern}: each {places.kind}{f', but for {places.without}' if places.without else ''}")


if __name__ == "__main__":
    main()
