"""Common calls of Django's object-relational mapper. Prints each answer."""
import os
import sys
import types

import django
from django.conf import settings

sys.modules["shop"] = types.ModuleType("shop")  # the models below belong to an application
sys.modules["shop"].__path__ = [os.path.dirname(os.path.abspath(__file__))]
settings.configure(
    DATABASES={"default": {"ENGINE": "django.db.backends.postgresql", "NAME": "postgres", "HOST": os.environ["PGHOST"],
                           "PORT": os.environ["PGPORT"], "USER": os.environ["PGUSER"]}},
    INSTALLED_APPS=["django.contrib.contenttypes", "django.contrib.auth", "django.contrib.sessions", "shop"],
    DEFAULT_AUTO_FIELD="django.db.models.BigAutoField", USE_TZ=True, SECRET_KEY="x",
)
django.setup()

from django.contrib.auth.models import Group, User  # noqa: E402
from django.contrib.postgres.fields import ArrayField  # noqa: E402
from django.core.management import call_command  # noqa: E402
from django.db import DatabaseError, connection, models, transaction  # noqa: E402
from django.db.models import Avg, Count, Exists, F, OuterRef, Prefetch, Q, Sum, Window  # noqa: E402
from django.db.models.functions import Lower, RowNumber  # noqa: E402

SAY = lambda *what: print(*(repr(each) for each in what))


class Shop(models.Model):
    name = models.CharField(max_length=20, unique=True)
    tags = ArrayField(models.TextField(), default=list)
    extra = models.JSONField(null=True)

    class Meta:
        app_label = "shop"


class Item(models.Model):
    shop = models.ForeignKey(Shop, models.CASCADE, related_name="items")
    name = models.CharField(max_length=20)
    price = models.DecimalField(max_digits=8, decimal_places=2, null=True)
    groups = models.ManyToManyField(Group)

    class Meta:
        app_label = "shop"


def tried(name, call):
    try:
        with transaction.atomic():
            SAY(name, call())
    except (DatabaseError, models.ObjectDoesNotExist) as error:
        SAY(name, type(error).__name__, str(error))


call_command("migrate", verbosity=0)
with connection.schema_editor() as editor:
    editor.create_model(Shop)
    editor.create_model(Item)
SAY(sorted(each for each in connection.introspection.table_names() if each.startswith(("shop", "auth"))))
user = User.objects.create_user("anna", "anna@example.org")
groups = [Group.objects.create(name=f"group {i}") for i in range(4)]
user.groups.set(groups[:2])
for i in range(1, 9):
    shop = Shop.objects.create(name=f"shop {i}", tags=["a", str(i)], extra={"n": i})
    Item.objects.bulk_create([Item(shop=shop, name=f"item {j}", price=i * j) for j in range(4)])
    Item.objects.filter(shop=shop).first().groups.add(*groups[:i % 4])


def change():
    shop = Shop.objects.select_for_update().get(id=3)
    shop.name, shop.extra = shop.name + "!", None
    shop.save()
    shop.refresh_from_db()
    return shop.name, shop.extra


def savepoint():
    try:
        with transaction.atomic():
            Shop.objects.create(name="shop 1")
    except DatabaseError as error:
        SAY(str(error))
    return Shop.objects.get(name="shop 1").id


def later():
    transaction.on_commit(lambda: SAY("committed"))
    return Item.objects.create(shop_id=999, name="nowhere").id


def raw():
    with connection.cursor() as cursor:
        cursor.execute("SELECT name, id FROM shop_shop WHERE id = %s", [4])
        return cursor.fetchall(), [each[0] for each in cursor.description], cursor.rowcount


CALLS = {
    "get": lambda: Shop.objects.get(id=2).name,
    "get, none there": lambda: Shop.objects.get(id=2000),
    "filter": lambda: list(Shop.objects.filter(name__startswith="shop", id__lt=5).order_by("-id").values_list("id", "name", "tags", "extra")),
    "related": lambda: [(each.name, each.price) for each in Shop.objects.get(id=2).items.order_by("id")],
    "select_related": lambda: [(each.name, each.shop.name) for each in Item.objects.select_related("shop").order_by("id")[:5]],
    "prefetch": lambda: [(each.name, [i.name for i in each.items.all()]) for each in Shop.objects.prefetch_related(Prefetch("items", Item.objects.order_by("id"))).order_by("id")[:3]],
    "many to many": lambda: [(each.id, sorted(g.name for g in each.groups.all())) for each in Item.objects.prefetch_related("groups").order_by("id")[:6]],
    "aggregate": lambda: Item.objects.aggregate(Sum("price"), Avg("price"), Count("id")),
    "annotate": lambda: list(Shop.objects.annotate(n=Count("items"), s=Sum("items__price")).order_by("id").values_list("id", "n", "s")),
    "exists": lambda: (Shop.objects.filter(name="shop 1").exists(), Shop.objects.filter(name="none").exists()),
    "subquery": lambda: list(Shop.objects.filter(Exists(Item.objects.filter(shop=OuterRef("pk"), price__gt=20))).order_by("id").values_list("id", flat=True)),
    "window": lambda: list(Item.objects.annotate(n=Window(RowNumber(), partition_by=F("shop"), order_by=F("id").asc())).order_by("id").values_list("id", "n")[:9]),
    "union": lambda: list(Shop.objects.values_list("name").union(Group.objects.values_list("name")).order_by("name")),
    "distinct": lambda: list(Item.objects.order_by("name").values_list("name", flat=True).distinct()),
    "or": lambda: list(Item.objects.filter(Q(price__gte=24) | Q(price=None)).order_by("id").values_list("id", flat=True)),
    "array": lambda: list(Shop.objects.filter(tags__contains=["5"]).values_list("id", flat=True)),
    "json": lambda: list(Shop.objects.filter(extra__n=4).values_list("id", "extra__n")),
    "lower": lambda: list(Shop.objects.annotate(low=Lower("name")).filter(low="shop 4").values_list("low")),
    "iterator": lambda: [each.id for each in Item.objects.order_by("id").iterator(chunk_size=5)],
    "in_bulk": lambda: sorted(Shop.objects.in_bulk([1, 2, 99])),
    "count": lambda: Shop.objects.count(),
    "create": lambda: Shop.objects.create(name=f"more {Shop.objects.count()}").id,
    "get_or_create": lambda: Shop.objects.get_or_create(name="perhaps", defaults={"tags": ["new"]})[1],
    "update_or_create": lambda: Shop.objects.update_or_create(name="perhaps", defaults={"tags": ["newer"]})[0].tags,
    "change": change,
    "update": lambda: Item.objects.filter(shop_id=4).update(price=F("price") + 1),
    "bulk_update": lambda: Item.objects.bulk_update([Item(id=i, price=i) for i in (1, 2, 3)], ["price"]),
    "upsert": lambda: len(Shop.objects.bulk_create([Shop(name="shop 1"), Shop(name="shop 2")], ignore_conflicts=True)),
    "duplicate": lambda: Shop.objects.create(name="shop 1"),
    "savepoint": savepoint,
    "foreign key": later,
    "raw": raw,
    "raw objects": lambda: [each.name for each in Shop.objects.raw("SELECT * FROM shop_shop WHERE id < %s ORDER BY id", [4])],
    "login": lambda: (User.objects.get(username="anna").check_password("x"), sorted(User.objects.get(username="anna").get_group_permissions())),
    "delete": lambda: Shop.objects.filter(name__startswith="more").delete(),
    "delete with children": lambda: Shop.objects.get(name=f"shop {8 - turn}").delete(),
    "wrong": lambda: list(Shop.objects.extra(select={"x": "nope"})),
}
for turn in range(3):
    for name, call in CALLS.items():
        tried(name, call)
    for name in ("get", "count", "change", "raw"):
        if name != "change":
            SAY(name, CALLS[name]())
with connection.schema_editor() as editor:
    field = models.IntegerField(default=7)
    field.set_attributes_from_name("added")
    editor.add_field(Shop, field)
    for name in ("get", "filter", "raw objects"):
        tried(name, CALLS[name])
    editor.remove_field(Shop, field)
for name in ("get", "filter", "raw objects"):
    tried(name, CALLS[name])
call_command("flush", interactive=False, verbosity=0)
SAY(Shop.objects.count(), list(Shop.objects.all()))
SAY("end")
