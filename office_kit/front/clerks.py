"""Clerks who sign in at a front by name, for tests: their roles, and their passwords or certificates, in the files that INSTALL.md names."""
import base64
import itertools
import secrets
import subprocess
from collections.abc import Iterable, Mapping
from pathlib import Path

from office_kit.common import CLERK, ROOT, fail, need

# A change of a text: the old part, how often it occurs, and the new one.
Change = tuple[str, int, str]
WAYS = ("password", "certificate")


def adapted(*changes: Iterable[Change]) -> dict[str, str]:
    """The files of the front, by their paths below deploy/, with each old part replaced by a new one, in turn; it must occur as often as is given."""
    deploy = Path(ROOT, "deploy")
    files = (deploy / "front.conf", deploy / "clerks.conf", *deploy.glob("nginx/*.conf"))
    texts = {str(path.relative_to(deploy)): path.read_text(encoding="utf-8") for path in files}
    for old, count, new in itertools.chain(*changes):
        found = sum(text.count(old) for text in texts.values())
        if found != count:
            fail(f"the front has {found} times, and not {count}: {old!r}")
        texts = {name: text.replace(old, new) for name, text in texts.items()}
    return texts


def basic(name: str, password: str) -> str:
    return "Basic " + base64.b64encode(f"{name}:{password}".encode()).decode()


def password_line(name: str, password: str) -> str:
    """The line of a password file, as INSTALL.md has it made."""
    words = [need("htpasswd", "apache2-utils"), "-niB", name]
    return subprocess.run(words, input=password, check=True, capture_output=True, text=True).stdout.strip() + "\n"


def certify(place: str, subject: str, by: str | None = None, *more: str) -> None:
    """Makes a key and a certificate at a place, signed by those of another place or by its own key."""
    words = [need("openssl", "openssl"), "req", "-x509", "-newkey", "ec", "-pkeyopt", "ec_paramgen_curve:prime256v1", "-nodes", "-days", "2", "-subj", subject,
             "-keyout", f"{place}.key", "-out", f"{place}.pem", *more]
    signed = ["-CA", f"{by}.pem", "-CAkey", f"{by}.key", "-extensions", "v3_req"] if by else []
    subprocess.run([*words, *signed], check=True, capture_output=True)


class Signing:
    """Clerks by name with their roles, and one of two ways in which they sign in, or none."""

    def __init__(self, way: str | None, roles: Mapping[str, str], others: Iterable[str] = ()) -> None:
        self.way, self.roles, self.names, self.key, self.folder = way, roles, [*roles, *others], CLERK[1].decode(), ""
        self.passwords = {name: secrets.token_urlsafe(15) for name in self.names}

    def put(self, folder: str) -> list[Change]:
        """Writes the key, the passwords and the certificates into the folder of a front. The changes of its files: the names, and one line without its `#`."""
        self.folder = folder
        self.write("clerks-key.conf", f'set $office_key "{self.key}";\n')
        if self.way == "password":
            self.write("passwords", "".join(password_line(*it) for it in self.passwords.items()))
        if self.way == "certificate":
            self.certify("clerks", None)
            for name in self.names:
                self.certify(name, "clerks")
        names = "".join(f'    {name} "{roles}";\n' for name, roles in self.roles.items())
        included = f"include /usr/share/procure/nginx/clerks-{self.way}.conf;"
        return [("    # cora all;\n", 1, names), *([(f"# {included}", 1, included)] if self.way else [])]

    def write(self, name: str, text: str) -> None:
        Path(self.folder, name).write_text(text, encoding="utf-8")

    def certify(self, name: str, by: str | None, subject: str = "") -> None:
        """Makes a certificate of a name, signed by another name's or by its own key."""
        certify(f"{self.folder}/{name}", subject or f"/CN={name}", by and f"{self.folder}/{by}")

    def fields(self, name: str) -> dict[str, str]:
        return {"Authorization": basic(name, self.passwords.get(name, "wrong"))} if self.way == "password" and name else {}
