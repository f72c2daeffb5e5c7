"""The page as one file, and as a folder for a host of static files. Neither asks any host but its own for anything, which their policies say too."""
import base64
import gzip
import hashlib
from pathlib import Path

import bundle
import content

FOLDER = Path(__file__).resolve().parent.parent
# What each page may do: the module is compiled, the worker begun; the font lies in the style, and the icon in the page.
POLICY = "; ".join(
    (
        "default-src 'none'",
        "script-src {script} 'wasm-unsafe-eval'",
        "worker-src {worker}",
        "style-src {style}",
        "connect-src {connect}",
        "font-src data:",
        "img-src data:",
        "base-uri 'none'",
        "form-action 'none'",
    )
)


def digest(text: str) -> str:
    """Returns the words by which a policy allows an element with this text."""
    return f"'sha256-{base64.b64encode(hashlib.sha256(text.encode()).digest()).decode()}'"


def style() -> str:
    """Returns the style, with the font in it."""
    font = base64.b64encode((FOLDER / "apl.woff2").read_bytes()).decode()
    face = f'@font-face {{ font-family: APL; src: url(data:font/woff2;base64,{font}) format("woff2"); }}\n'
    return face + (FOLDER / "style.css").read_text(encoding="utf-8")


def script() -> str:
    """Returns the one script."""
    return bundle.bundled(bundle.modules_of(FOLDER), "main")


def inside(name: str, packed: bytes) -> str:
    """Returns an element that holds data, by gzip, which no policy is asked for."""
    return f'<script id="{name}" type="application/gzip">{base64.b64encode(packed).decode()}</script>\n'


def laid_out(css: str, policy: str, scripts: str) -> str:
    """Returns the page with these parts."""
    page = (FOLDER / "index.html").read_text(encoding="utf-8")
    page = page.replace("<!-- policy -->", f'<meta http-equiv="Content-Security-Policy" content="{policy}">')
    return page.replace("<!-- style -->", f"<style>{css}</style>").replace("<!-- scripts -->", inside("content", content.packed()) + scripts)


def one_file(module: bytes) -> str:
    """Returns the page as one file, the module inside."""
    css, code = style(), script()
    policy = POLICY.format(script=digest(code), worker="blob:", style=digest(css), connect="'none'")
    return laid_out(css, policy, f"{inside('module', gzip.compress(module, 9, mtime=0))}<script>{code}</script>")


def folder(module: bytes) -> dict[str, bytes]:
    """Returns the files for a host of static files, by their names."""
    css = style()
    policy = POLICY.format(script="'self'", worker="'self'", style=digest(css), connect="'self'")
    page = laid_out(css, policy, '<script src="apl.js"></script>')
    return {"index.html": page.encode(), "apl.js": script().encode(), "apl.wasm": module}
