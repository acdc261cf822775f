"""The page as one file, which opens from a disk: its style, its icon and its scripts are in it, and its policy allows those alone."""
import base64
import hashlib
import re

from archives import Entry
from source import TOP, Refusal


def single() -> Entry:
    """The page."""
    web = TOP / "web"
    if not (web / "cose_wasm.js").exists():
        raise Refusal("web/cose_wasm.js isn't built: ci/web_module builds it")
    text = (web / "index.html").read_text()

    def style(found: "re.Match[str]") -> str:
        return "<style>\n" + (web / found[1]).read_text() + "</style>"

    def script(name: str) -> str:
        content = (web / name).read_text()
        if "</script" in content:
            raise Refusal(f"web/{name} has the end of a script in it")
        return f"<script>\n{content}</script>\n"

    def allowed(tag: str) -> str:
        """The sums of what is in these elements, as a policy names them."""
        contents = re.findall(rf"<{tag}>(.*?)</{tag}>", text, re.S)
        return " ".join(f"'sha256-{base64.b64encode(hashlib.sha256(it.encode()).digest()).decode()}'" for it in contents)

    icon = base64.b64encode((web / "icon.svg").read_bytes()).decode()
    text = text.replace('href="icon.svg"', f'href="data:image/svg+xml;base64,{icon}"')
    text = re.sub(r'<link rel="stylesheet" href="([\w.]+)" ?/?>', style, text)
    # They are deferred, and one without a file can't be: so they come last.
    deferred = r'\s*<script defer src="([\w.]+)"></script>'
    scripts = "".join(script(name) for name in re.findall(deferred, text))
    text = re.sub(deferred, "", text).replace("</body>", scripts + "</body>")
    for tag in ("script", "style"):
        policy = rf"({tag}-src [^;\"]*)'self'"
        if not re.search(policy, text):
            raise Refusal(f"web/index.html has no policy on a {tag} of its own")
        text = re.sub(policy, lambda found: found[1] + allowed(tag), text)
    left = re.findall(r'<(?:script|link)[^>]* (?:src|href)="(?!data:)([^"]+)"', text)
    if left:
        raise Refusal(f"the page still names {', '.join(left)}")
    return Entry(text.encode())
