"""What ci/page and ci/page_signatures.py ask of the page of web/ in a tab: its fields are set, and what it shows is compared."""
import json
import sys

ADMITTED = "Authentic, and admitted as a token"
# what the fields of terms and requirements are at first, and what allows any key
STATED = {"issuer": "", "subject": "", "audience": "", "max_lifetime": "", "max_age": "", "leeway": "0", "now": "", "aad": "", "wanted": "0"}
STATED.update({"least_secret": "0", "short_mac": False, "without_alg": False})
ALL_KEYS = {"short_mac": True, "without_alg": True}
SHOWN = """(() => {
    const bytes = [...document.querySelectorAll("#bytes .byte")];
    const text = (id) => document.getElementById(id).textContent;
    const phases = [...document.querySelectorAll("#phases li")].map((it) => it.dataset.state);
    return {title: text("verdict_title"), text: text("verdict_text"), reason: text("verdict_reason").split(",")[0], marked: bytes.findIndex((it) => it.classList.contains("fault")),
        refused: phases.indexOf("refused") + 1, keys: text("key_list"), payload: text("payload"), headers: text("headers")};
})()"""
SETTLED = 'document.getElementById("answer").dataset.number === String(state.number)'
# how many keys are shown as the chosen one
CHOSEN = 'document.querySelectorAll("[data-state=chosen]").length'


def fail(text):
    sys.exit(f"page: {text}")


def expect(what, seen, wanted):
    if seen != wanted:
        fail(f"{what}: {seen!r}, and not {wanted!r}")


def expect_in(what, part, whole):
    if part not in whole:
        fail(f"{what}: there is no {part!r} in {whole!r}")


def shown(tab):
    tab.wait(SETTLED)
    return tab.value(SHOWN)


def set_inputs(tab, algorithms=(), present=("exp",), **fields):
    """Sets fields and boxes as a user would, and returns what is shown then."""
    boxes = {"algorithm": list(map(str, algorithms)), "present": list(present)}
    tab.value(
        f"""Object.entries({json.dumps({**STATED, **fields})}).forEach(([id, value]) => (byId(id)[value === !!value ? "checked" : "value"] = value)),
        Object.entries({json.dumps(boxes)}).forEach(([name, values]) => boxes(name).forEach((it) => (it.checked = values.includes(it.value)))),
        state.message = undefined, run()"""
    )
    return shown(tab)
