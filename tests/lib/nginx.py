"""nginx with lines of docs/OPERATIONS.md."""

import contextlib
import re
import subprocess
import textwrap
import time

from lib.serving import ROOT
from lib.websocket_client import SECONDS

MAIN = """
daemon off;
pid {folder}/pid;
error_log {folder}/errors;
worker_rlimit_nofile 20000;
events {{ worker_connections 8192; }}
http {{
    include /etc/nginx/mime.types;
    access_log off;
    client_body_temp_path {folder}/bodies;
    proxy_temp_path {folder}/proxied;
    fastcgi_temp_path {folder}/fastcgi;
    uwsgi_temp_path {folder}/uwsgi;
    scgi_temp_path {folder}/scgi;
{lines}
}}
"""


def lines_of_document(before):
    """Returns the lines in docs/OPERATIONS.md that stand behind these words."""
    text = (ROOT / "docs/OPERATIONS.md").read_text()
    found = re.search(rf"{re.escape(before)}\n\n((?:    .*\n|\n)+)", text)
    return textwrap.dedent(found[1])


def replace_once(text, old, new):
    """Returns the text with the only occurrence of `old` replaced."""
    if text.count(old) != 1:
        raise AssertionError(f"the configuration has {old!r} {text.count(old)} times")
    return text.replace(old, str(new))


@contextlib.contextmanager
def running_nginx(folder, lines):
    """Runs nginx in this folder, with these lines of its `http` part."""
    (folder / "configuration").write_text(MAIN.format(folder=folder, lines=lines))
    # If root starts nginx, its workers run as another user.
    folder.chmod(0o755)
    process = subprocess.Popen(["nginx", "-p", folder, "-c", folder / "configuration", "-e", folder / "errors"])
    try:
        await_file(folder / "pid", process)
        yield
    finally:
        process.terminate()
        process.wait(SECONDS)


def await_file(file, process):
    """Waits until the process has written the file."""
    bound = time.monotonic() + SECONDS
    while not file.exists():
        if process.poll() is not None or time.monotonic() > bound:
            raise AssertionError("nginx does not start")
        time.sleep(0.05)
