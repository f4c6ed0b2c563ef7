"""A proxy that speaks TLS in front of a server: nginx, set as `docs/INTEROP.md` says, with a certificate of its own."""

import shutil
import socket
import subprocess
import tempfile
import time
from pathlib import Path

SETTINGS = """daemon off;
pid {folder}/pid;
error_log {folder}/errors;
events {{}}
http {{
    access_log off;
    client_body_temp_path {folder}/bodies;
    proxy_temp_path {folder}/replies;
    server {{
        listen {address} ssl;
        ssl_certificate {folder}/certificate.pem;
        ssl_certificate_key {folder}/key.pem;
        client_max_body_size 100m;
        location / {{
            proxy_pass http://{server};
            proxy_http_version 1.1;
            proxy_request_buffering off;
            proxy_set_header Host $http_host;
            proxy_set_header Connection "";
        }}
    }}
}}
"""
CERTIFICATE = "openssl req -x509 -newkey rsa:2048 -nodes -days 2 -subj /CN=127.0.0.1 -addext subjectAltName=IP:127.0.0.1"


def absent():
    """Why there can be no proxy on this machine, or None."""
    lacking = [name for name in ("nginx", "openssl") if not shutil.which(name)]
    return f"{' and '.join(lacking)} not installed" if lacking else None


def free_address():
    with socket.create_server(("127.0.0.1", 0)) as it:
        return "127.0.0.1:%d" % it.getsockname()[1]


class Proxy:
    """A proxy that runs until the `with` block ends. `address` is `127.0.0.1:PORT`, and `certificate` the path of the
    certificate that it shows."""

    def __init__(self, server):
        self.server = server

    def __enter__(self):
        self.folder = tempfile.TemporaryDirectory()
        folder, self.address = Path(self.folder.name), free_address()
        self.certificate = str(folder / "certificate.pem")
        # Started as root, it has bodies kept by workers of another user.
        folder.chmod(0o711)
        words = [*CERTIFICATE.split(), "-keyout", folder / "key.pem", "-out", self.certificate]
        subprocess.run(words, check=True, stdin=subprocess.DEVNULL, stderr=subprocess.DEVNULL)
        settings = folder / "settings"
        settings.write_text(SETTINGS.format(folder=folder, address=self.address, server=self.server))
        self.running = subprocess.Popen(["nginx", "-p", folder, "-c", settings], stdin=subprocess.DEVNULL)
        self.wait(folder / "errors")
        return self

    def wait(self, errors):
        """Waits until it listens."""
        host, port = self.address.split(":")
        for _ in range(100):
            with socket.socket() as it:
                if it.connect_ex((host, int(port))) == 0:
                    return
            if self.running.poll() is not None:
                break
            time.sleep(0.1)
        told = errors.read_text() if errors.exists() else "nothing"
        self.__exit__()
        raise SystemExit(f"nginx doesn't listen, and told {told}")

    def __exit__(self, *_):
        self.running.terminate()
        self.running.wait(20)
        self.folder.cleanup()
