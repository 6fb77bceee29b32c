"""Common calls of SQLAlchemy 1.4: its core and its object-relational mapper. Prints each answer."""
import sqlalchemy as sa
from sqlalchemy.dialects.postgresql import ARRAY, JSONB, insert
from sqlalchemy.exc import DBAPIError
from sqlalchemy.orm import Session, declarative_base, joinedload, lazyload, relationship, selectinload, subqueryload

SAY = lambda *what: print(*(repr(each) for each in what))
Base = declarative_base()


class Author(Base):
    __tablename__ = "author"
    id = sa.Column(sa.Integer, primary_key=True)
    name = sa.Column(sa.Text, nullable=False)
    tags = sa.Column(ARRAY(sa.Text))
    extra = sa.Column(JSONB)
    version = sa.Column(sa.Integer, nullable=False)
    books = relationship("Book", back_populates="author", order_by="Book.id", cascade="all, delete-orphan")
    __mapper_args__ = {"version_id_col": version}

    def __repr__(self):
        return f"Author({self.id}, {self.name!r}, {self.tags}, {self.extra}, {self.version})"


class Book(Base):
    __tablename__ = "book"
    id = sa.Column(sa.Integer, primary_key=True)
    title = sa.Column(sa.Text, unique=True)
    price = sa.Column(sa.Numeric(8, 2))
    author_id = sa.Column(sa.ForeignKey("author.id"))
    author = relationship(Author, back_populates="books")

    def __repr__(self):
        return f"Book({self.id}, {self.title!r}, {self.price}, {self.author_id})"


CALLS = {
    "get": lambda s: s.get(Author, 3),
    "get, none there": lambda s: s.get(Author, 3000),
    "collection": lambda s: s.get(Author, 3).books,
    "lazy": lambda s: [each.author.name for each in s.query(Book).options(lazyload(Book.author)).order_by(Book.id).limit(6)],
    "where": lambda s: s.execute(sa.select(Author).where(Author.name.like("a%")).order_by(Author.id).limit(5)).scalars().all(),
    "joinedload": lambda s: [(each, each.books) for each in s.execute(sa.select(Author).options(joinedload(Author.books)).order_by(Author.id)).unique().scalars()],
    "selectinload": lambda s: [(each, each.books) for each in s.execute(sa.select(Author).options(selectinload(Author.books)).order_by(Author.id)).scalars()],
    "subqueryload": lambda s: [each.books for each in s.query(Author).options(subqueryload(Author.books)).order_by(Author.id).limit(3)],
    "join": lambda s: s.execute(sa.select(Book.title, Author.name).join(Author).order_by(Book.id)).all(),
    "outer join": lambda s: s.execute(sa.select(Author.name, Book.title).outerjoin(Book).order_by(Author.id, Book.id)).all(),
    "count": lambda s: s.query(Book).count(),
    "func.count": lambda s: s.execute(sa.select(sa.func.count()).select_from(Book)).scalar(),
    "exists": lambda s: s.execute(sa.select(Author).where(Author.books.any(Book.title == "b1.1"))).scalars().all(),
    "group by": lambda s: s.execute(sa.select(Book.author_id, sa.func.sum(Book.price)).group_by(Book.author_id).order_by(Book.author_id)).all(),
    "distinct": lambda s: s.execute(sa.select(Book.author_id).distinct().order_by(Book.author_id)).all(),
    "in": lambda s: s.execute(sa.select(Author).where(Author.id.in_([1, 2, 9])).order_by(Author.id.desc())).scalars().all(),
    "for update": lambda s: s.query(Author).filter(Author.id == 2).with_for_update().one(),
    "window": lambda s: s.execute(sa.select(Book.id, sa.func.row_number().over(partition_by=Book.author_id, order_by=Book.id)).order_by(Book.id)).all(),
    "cte": lambda s: s.execute(sa.select((c := sa.select(Book.id, Book.title).where(Book.id < 5).cte("c")).c.title).order_by(c.c.id)).all(),
    "union": lambda s: s.execute(sa.union(sa.select(Author.name), sa.select(Book.title)).order_by("name")).all(),
    "array": lambda s: s.execute(sa.select(Author.id, Author.tags[1]).where(Author.tags.contains(["x"])).order_by(Author.id)).all(),
    "json": lambda s: s.execute(sa.select(Author.id, Author.extra["n"]).where(Author.extra["n"].astext == "4")).all(),
    "text": lambda s: s.execute(sa.text("SELECT name, id FROM author WHERE id = :id"), {"id": 4}).mappings().all(),
    "yield_per": lambda s: list(s.query(Book).order_by(Book.id).yield_per(4)),
    "stream": lambda s: s.execute(sa.select(Book).order_by(Book.id), execution_options={"stream_results": True, "max_row_buffer": 3}).scalars().all(),
    "add": lambda s: s.add(b := Book(title="new", price=3, author_id=1)) or s.flush() or b,
    "add several": lambda s: s.add_all(all := [Book(title=f"several {i}", author_id=2) for i in range(4)]) or s.flush() or all,
    "change": lambda s: setattr(s.get(Author, 4), "name", "changed") or s.flush() or s.get(Author, 4),
    "refresh": lambda s: s.refresh(a := s.get(Author, 4)) or a,
    "savepoint": lambda s: nested(s),
    "bulk update": lambda s: s.query(Book).filter(Book.title.like("several%")).update({"price": Book.id * 2}, synchronize_session=False),
    "update returning": lambda s: s.execute(sa.update(Book).where(Book.id == 1).values(price=9).returning(Book.id, Book.price)).all(),
    "upsert": lambda s: s.execute(insert(Book).values(id=1, title="again").on_conflict_do_update(index_elements=["id"], set_={"price": 10}).returning(Book.title, Book.price)).all(),
    "insert many": lambda s: s.execute(sa.insert(Book), [{"title": f"many {i}", "author_id": 3} for i in range(3)]).rowcount,
    "duplicate": lambda s: s.add(Book(title="b1.1")) or s.flush(),
    "stale": lambda s: (s.get(Author, 5), s.execute(sa.text("UPDATE author SET version = version + 1 WHERE id = 5")), setattr(s.get(Author, 5), "name", "stale"), s.flush()),
    "delete": lambda s: s.delete(s.query(Book).filter(Book.title == "new").one()) or s.flush(),
    "bulk delete": lambda s: s.query(Book).filter(Book.title.like("several%") | Book.title.like("many%")).delete(synchronize_session=False),
    "delete with children": lambda s: s.delete(s.get(Author, 9)) or s.flush(),
    "wrong": lambda s: s.execute(sa.text("SELECT nope FROM author")),
}


def nested(session):
    try:
        with session.begin_nested():
            session.add(Book(title="b1.1"))
            session.flush()
    except DBAPIError as error:
        SAY(error.orig.pgcode, str(error.orig))
    with session.begin_nested():
        session.get(Author, 6).name = "in a savepoint"
    return session.get(Author, 6)


def run(engine, name, call):
    with Session(engine) as session:
        try:
            SAY(name, call(session))
            session.commit()
        except DBAPIError as error:
            SAY(name, error.orig.pgcode, str(error.orig))
        except Exception as error:
            SAY(name, type(error).__name__, str(error))


for level in ("READ COMMITTED", "REPEATABLE READ", "SERIALIZABLE", "AUTOCOMMIT"):
    engine = sa.create_engine("postgresql+psycopg2://", isolation_level=level, pool_size=2)
    Base.metadata.drop_all(engine)
    Base.metadata.create_all(engine)
    with Session(engine) as session:
        for i in range(1, 11):
            books = [Book(id=i * 3 + j, title=f"b{i}.{j}", price=i + j) for j in range(3)]
            session.add(Author(id=i, name=f"a{i}", tags=["x", None, str(i)], extra={"n": i}, books=books))
        session.commit()
        session.execute(sa.text("SELECT setval('book_id_seq', 1000)"))
        session.commit()
    for turn in range(3):
        for name, call in CALLS.items():
            run(engine, name, call)
    SAY(sorted(sa.inspect(engine).get_table_names()), [each["name"] for each in sa.inspect(engine).get_columns("book")])
    engine.dispose()
SAY("end")
