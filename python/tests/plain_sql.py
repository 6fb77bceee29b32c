"""Statements at a PostgreSQL server, each a transaction by itself."""


def run_sql(dsn, text):
    import psycopg2

    connection = psycopg2.connect(dsn)
    connection.autocommit = True
    try:
        cursor = connection.cursor()
        cursor.execute(text)
        return cursor.fetchall() if cursor.description else None
    finally:
        connection.close()
