"""Django's own admin site, with its users, groups, flat pages and redirects, by four threads. Used
by `totals.py`: `prepare` makes the tables, `run` makes requests of Django's test client, without a
web server."""

import os
import sys
import threading

import django
from django.conf import settings

CONTRIB = "admin auth contenttypes sessions messages sites flatpages redirects".split()
MIDDLEWARE = (
    "django.contrib.sessions.middleware.SessionMiddleware",
    "django.middleware.common.CommonMiddleware",
    "django.contrib.auth.middleware.AuthenticationMiddleware",
    "django.contrib.messages.middleware.MessageMiddleware",
    "django.contrib.flatpages.middleware.FlatpageFallbackMiddleware",
    "django.contrib.redirects.middleware.RedirectFallbackMiddleware",
)
PROCESSORS = ("template.context_processors.request", "contrib.auth.context_processors.auth",
              "contrib.messages.context_processors.messages")
settings.configure(
    SECRET_KEY="not a secret", ALLOWED_HOSTS=["*"], ROOT_URLCONF=__name__, USE_TZ=True, SITE_ID=1,
    STATIC_URL="/static/", INSTALLED_APPS=[f"django.contrib.{name}" for name in CONTRIB],
    MIDDLEWARE=list(MIDDLEWARE), PASSWORD_HASHERS=["django.contrib.auth.hashers.MD5PasswordHasher"],
    DEFAULT_AUTO_FIELD="django.db.models.AutoField",
    TEMPLATES=[{
        "BACKEND": "django.template.backends.django.DjangoTemplates",
        "APP_DIRS": True,
        "OPTIONS": {"context_processors": [f"django.{name}" for name in PROCESSORS]},
    }],
    DATABASES={"default": {
        "ENGINE": "django.db.backends.postgresql", "NAME": os.environ["PGDATABASE"],
        "HOST": os.environ["PGHOST"], "PORT": os.environ["PGPORT"], "USER": os.environ["PGUSER"],
        "ATOMIC_REQUESTS": bool(os.environ.get("ATOMIC_REQUESTS")),
    }},
)
django.setup()

from django.contrib import admin
from django.contrib.auth.models import Group, User
from django.core.management import call_command
from django.db import connection
from django.test import Client
from django.urls import path

urlpatterns = [path("admin/", admin.site.urls)]
THREADS, ROUNDS = 4, 40
PASSWORD = {"password1": "Zanteyard99", "password2": "Zanteyard99"}
DATES = {"date_joined_0": "2024-01-01", "date_joined_1": "00:00:00"}
DATES.update(last_login_0="", last_login_1="")


class Visitor:
    """One who administrates."""

    def __init__(self, number: int) -> None:
        self.number, self.client = number, Client()
        self.answers: dict[str, int] = {}

    def post(self, place: str, **fields: object) -> None:
        self._count(self.client.post(f"/admin/{place}", fields))

    def get(self, place: str) -> None:
        self._count(self.client.get(place if place.startswith("/") else f"/admin/{place}"))

    def _count(self, response) -> None:
        name = f"{response.request['REQUEST_METHOD']} {response.status_code}"
        self.answers[name] = self.answers.get(name, 0) + 1

    def visit(self) -> None:
        try:
            self.post("login/", username=f"admin{self.number}", password="secret", next="/admin/")
            self.get("")
            for turn in range(ROUNDS):
                self.manage(f"{self.number}x{turn}", turn)
            self.get("logout/")
        finally:
            connection.close()

    def manage(self, name: str, turn: int) -> None:
        self.post("auth/user/add/", username=f"user{name}", **PASSWORD)
        self.get(f"auth/user/?q=user{name}")
        self.get("auth/user/?is_staff__exact=1&o=1")
        user = User.objects.get(username=f"user{name}")
        self.get(f"auth/user/{user.id}/change/")
        its = {"username": user.username, "first_name": "F", "is_active": "on", **DATES}
        self.post(f"auth/user/{user.id}/change/", email="e@x.example", groups=[1], **its)
        self.post("auth/group/1/change/", name="shared", permissions=[1, 2, 3 + turn % 5])
        self.post("auth/group/add/", name=f"group{name}", permissions=[4, 5])
        self.post("flatpages/flatpage/add/", url=f"/p{name}/", title="t", content="c", sites=[1])
        self.get(f"/p{name}/")
        self.get(f"/pnone{name}/")
        self.get(f"auth/user/{user.id}/history/")
        if turn % 2:
            self.post(f"auth/user/{user.id}/delete/", post="yes")
            self.get("auth/group/")


def main() -> None:
    if sys.argv[1] == "prepare":
        call_command("migrate", verbosity=0)
        for number in range(THREADS):
            User.objects.create_superuser(f"admin{number}", "a@x.example", "secret")
        Group.objects.create(name="shared")
        return
    visitors = [Visitor(number) for number in range(THREADS)]
    threads = [threading.Thread(target=each.visit) for each in visitors]
    for each in threads:
        each.start()
    for each in threads:
        each.join()
    call_command("clearsessions")
    print([each.answers for each in visitors])


if __name__ == "__main__":
    main()
