"""Keystone's own REST API in this process, by four threads. Used by `totals.py`: `prepare` makes
the tables and the first project, `run` makes requests of its WSGI application."""

import io
import json
import os
import subprocess
import sys
import threading
from typing import Any

THREADS, ROUNDS = 4, int(os.environ.get("ROUNDS", "2"))
DOMAIN = {"id": "default"}
CONFIGURATION = """[DEFAULT]
log_file = {folder}/keystone.log
[database]
connection = postgresql+psycopg2://{PGUSER}@{PGHOST}:{PGPORT}/{PGDATABASE}
[token]
provider = fernet
[fernet_tokens]
key_repository = {folder}/fernet-keys
[credential]
key_repository = {folder}/credential-keys
[identity]
password_hash_rounds = 4
[cache]
enabled = false
"""
SETUP = (
    ("db_sync",),
    ("fernet_setup", "--keystone-user", "root", "--keystone-group", "root"),
    ("credential_setup", "--keystone-user", "root", "--keystone-group", "root"),
    ("bootstrap", "--bootstrap-password", "secret", "--bootstrap-username", "admin",
     "--bootstrap-project-name", "admin", "--bootstrap-role-name", "admin",
     "--bootstrap-service-name", "keystone", "--bootstrap-region-id", "RegionOne",
     "--bootstrap-public-url", "http://localhost:5000"),
)


def configure() -> str:
    folder = os.getcwd()
    path = os.path.join(folder, "keystone.conf")
    with open(path, "w", encoding="utf-8") as file:
        file.write(CONFIGURATION.format(folder=folder, **os.environ))
    return path


class Client:
    """Talks with the application as a web server does."""

    def __init__(self, application: Any) -> None:
        self.application = application
        self.answers: dict[str, int] = {}
        self.token = ""

    def call(
        self, verb: str, path: str, body: Any = None, token: str | None = None
    ) -> tuple[dict[str, str], Any]:
        data = b"" if body is None else json.dumps(body).encode()
        place, _, query = path.partition("?")
        request = {
            "REQUEST_METHOD": verb, "PATH_INFO": f"/v3/{place}", "QUERY_STRING": query,
            "SCRIPT_NAME": "", "SERVER_NAME": "localhost", "SERVER_PORT": "80",
            "SERVER_PROTOCOL": "HTTP/1.1", "REMOTE_ADDR": "127.0.0.1",
            "CONTENT_TYPE": "application/json", "CONTENT_LENGTH": str(len(data)),
            "wsgi.version": (1, 0), "wsgi.url_scheme": "http", "wsgi.input": io.BytesIO(data),
            "wsgi.errors": sys.stderr, "wsgi.multithread": True, "wsgi.multiprocess": False,
            "wsgi.run_once": False,
        }
        if token or self.token:
            request["HTTP_X_AUTH_TOKEN"] = token or self.token
        status, headers = "", {}

        def start(its: str, those: list[tuple[str, str]], _: Any = None) -> None:
            nonlocal status
            status = its
            headers.update((name.lower(), value) for name, value in those)

        answer = b"".join(self.application(request, start))
        name = f"{verb} {status[:3]}"
        self.answers[name] = self.answers.get(name, 0) + 1
        return headers, json.loads(answer) if answer[:1] == b"{" else None

    def log_in(self, name: str, password: str, project: str) -> str:
        user = {"name": name, "domain": DOMAIN, "password": password}
        asked: dict[str, Any] = {"identity": {"methods": ["password"], "password": {"user": user}}}
        asked["scope"] = {"project": {"name": project, "domain": DOMAIN}}
        headers, _ = self.call("POST", "auth/tokens", {"auth": asked}, "none")
        return headers.get("x-subject-token", "")

    def made(self, kind: str, name: str, **more: Any) -> str:
        body = {"name": name, "domain_id": "default", **more}
        return str(self.call("POST", f"{kind}s", {kind: body})[1][kind]["id"])

    def work(self, number: int) -> None:
        self.token = self.log_in("admin", "secret", "admin")
        roles = self.call("GET", "roles")[1]["roles"]
        role = next(each["id"] for each in roles if each["name"] == "member")
        for turn in range(ROUNDS):
            self.turn(f"{number}-{turn}", role, bool(turn % 2))

    def turn(self, name: str, role: str, is_removed: bool) -> None:
        project, group = self.made("project", f"p{name}"), self.made("group", f"g{name}")
        user = self.made("user", f"u{name}", password="first")
        self.call("PUT", f"projects/{project}/users/{user}/roles/{role}")
        self.call("PUT", f"groups/{group}/users/{user}")
        its = self.log_in(f"u{name}", "first", f"p{name}")
        for path in ("auth/projects", "auth/catalog"):
            self.call("GET", path, None, its)
        assigned = f"role_assignments?user.id={user}&effective"
        for path in (f"users/{user}", "users?domain_id=default", "projects", assigned):
            self.call("GET", path)
        self.call("PATCH", f"users/{user}", {"user": {"description": name}})
        self.call("PATCH", f"projects/{project}", {"project": {"description": name}})
        change = {"original_password": "first", "password": "second"}
        self.call("POST", f"users/{user}/password", {"user": change}, its)
        self.call("DELETE", "auth/tokens", None, its)
        if is_removed:
            self.call("DELETE", f"projects/{project}")
            self.call("DELETE", f"users/{user}")


def main() -> None:
    path = configure()
    if sys.argv[1] == "prepare":
        for words in SETUP:
            subprocess.run(["keystone-manage", "--config-file", path, *words], check=True)
        return
    os.environ["OS_KEYSTONE_CONFIG_FILES"] = path
    sys.argv = ["keystone"]
    from keystone.server import wsgi

    application = wsgi.initialize_public_application()
    clients = [Client(application) for _ in range(THREADS)]
    works = [each.work for each in clients]
    threads = [threading.Thread(target=work, args=(at,)) for at, work in enumerate(works)]
    for each in threads:
        each.start()
    for each in threads:
        each.join()
    print([each.answers for each in clients])


if __name__ == "__main__":
    main()
