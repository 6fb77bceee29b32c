import java.io.StringReader;
import java.io.StringWriter;
import java.math.BigDecimal;
import java.sql.*;
import java.util.Arrays;
import java.util.Properties;
import org.postgresql.PGConnection;
import org.postgresql.util.PSQLException;
import org.postgresql.util.ServerErrorMessage;

/** Usual calls of PostgreSQL's JDBC driver. Prints each answer. */
public class Jdbc {
    static Connection connect(String... more) throws SQLException {
        Properties its = new Properties();
        its.setProperty("user", System.getenv("PGUSER"));
        its.setProperty("sslmode", "disable");
        for (int i = 0; i < more.length; i += 2) its.setProperty(more[i], more[i + 1]);
        return DriverManager.getConnection("jdbc:postgresql://127.0.0.1:" + System.getenv("PGPORT") + "/postgres", its);
    }

    static void rows(ResultSet r) throws SQLException {
        ResultSetMetaData its = r.getMetaData();
        while (r.next()) {
            StringBuilder line = new StringBuilder();
            for (int i = 1; i <= its.getColumnCount(); i++) {
                line.append(its.getColumnLabel(i)).append(' ').append(its.getColumnTypeName(i)).append(' ');
                line.append(r.getString(i)).append("; ");
            }
            System.out.println(line);
        }
    }

    static void told(SQLException error) {
        ServerErrorMessage its = error instanceof PSQLException ? ((PSQLException) error).getServerErrorMessage() : null;
        System.out.println(error.getSQLState() + " " + error.getMessage() + (its == null ? "" : " at " + its.getPosition() + " " + its.getConstraint()));
    }

    interface Call { void run() throws SQLException; }

    static void tried(Connection c, Call call) throws SQLException {
        try {
            call.run();
        } catch (SQLException error) {
            told(error);
            for (SQLException next = error.getNextException(); next != null; next = next.getNextException()) told(next);
            if (!c.getAutoCommit()) c.rollback();
        }
    }

    static void set(PreparedStatement s, Object... values) throws SQLException {
        for (int i = 0; i < values.length; i++) s.setObject(i + 1, values[i]);
    }

    static void ask(PreparedStatement s, Object... values) throws SQLException {
        set(s, values);
        if (s.execute()) rows(s.getResultSet()); else System.out.println("changed " + s.getUpdateCount());
    }

    static void usual(Connection c) throws SQLException {
        String[] texts = {"SELECT balance, id FROM account WHERE id = ?", "UPDATE account SET balance = balance + 1 WHERE id = ?",
            "UPDATE account SET balance = balance + 1 WHERE id = ? RETURNING id, owner", "SELECT * FROM account WHERE id = ?",
            "SELECT a.owner, e.* FROM account a JOIN entry e ON e.account = a.id WHERE a.id = ? ORDER BY e.number",
            "SELECT count(*) FROM entry WHERE account = ?", "SELECT body, id FROM blob WHERE ? > 0 ORDER BY id LIMIT 2",
            "INSERT INTO entry VALUES (?, 9, 1) ON CONFLICT (account, number) DO UPDATE SET amount = entry.amount + 1"};
        PreparedStatement[] all = new PreparedStatement[texts.length];
        for (int j = 0; j < texts.length; j++) all[j] = c.prepareStatement(texts[j]);
        for (int i = 1; i < 9; i++) {
            for (PreparedStatement each : all) ask(each, i);
            if (!c.getAutoCommit()) { if (i == 4) c.rollback(); else c.commit(); }
        }
        for (PreparedStatement each : all) each.close();
    }

    static void batches(Connection c) throws SQLException {
        for (int turn = 0; turn < 3; turn++) {
            PreparedStatement u = c.prepareStatement("UPDATE account SET balance = balance + ? WHERE id = ?");
            for (int i = 0; i < 30; i++) { set(u, 1, i); u.addBatch(); }
            System.out.println(Arrays.toString(u.executeBatch()));
            PreparedStatement k = c.prepareStatement("INSERT INTO journal (line) VALUES (?)", Statement.RETURN_GENERATED_KEYS);
            for (int i = 0; i < 5; i++) { set(k, "line " + i); k.addBatch(); }
            System.out.println(Arrays.toString(k.executeBatch()));
            rows(k.getGeneratedKeys());
            PreparedStatement n = c.prepareStatement("INSERT INTO journal (line) VALUES (?)", new String[] {"id", "at"});
            set(n, "named"); System.out.println(n.executeUpdate()); rows(n.getGeneratedKeys());
            PreparedStatement w = c.prepareStatement("INSERT INTO account (id, owner) VALUES (?, ?)");
            for (int i = 0; i < 4; i++) { set(w, i == 2 ? 1 : 900 + i, "x"); w.addBatch(); }
            tried(c, () -> System.out.println(Arrays.toString(w.executeBatch())));
            Statement s = c.createStatement();
            s.addBatch("UPDATE account SET balance = 1 WHERE id = 3"); s.addBatch("DELETE FROM entry WHERE account = 12");
            System.out.println(Arrays.toString(s.executeBatch()));
            System.out.println(s.executeUpdate("DELETE FROM account WHERE id >= 900"));
            if (!c.getAutoCommit()) c.commit();
        }
    }

    static void several(Connection c) throws SQLException {
        for (int turn = 0; turn < 3; turn++) {
            Statement s = c.createStatement();
            boolean more = s.execute("SELECT id, owner FROM account WHERE id = 5; UPDATE account SET balance = 5 WHERE id = 5; SELECT balance FROM account WHERE id = 5");
            while (more || s.getUpdateCount() >= 0) {
                if (more) rows(s.getResultSet()); else System.out.println("changed " + s.getUpdateCount());
                more = s.getMoreResults();
            }
        }
    }

    public static void main(String[] arguments) throws Exception {
        String[][] modes = {{"extended", "5"}, {"extended", "1"}, {"extended", "-1"}, {"extendedForPrepared", "2"}, {"simple", "5"},
            {"extendedCacheEverything", "1"}};
        for (String[] mode : modes) {
            try (Connection c = connect("preferQueryMode", mode[0], "prepareThreshold", mode[1])) {
                System.out.println(mode[0] + " " + mode[1]);
                usual(c);
                c.setAutoCommit(false);
                for (int level : new int[] {Connection.TRANSACTION_READ_COMMITTED, Connection.TRANSACTION_REPEATABLE_READ, Connection.TRANSACTION_SERIALIZABLE}) {
                    c.setTransactionIsolation(level);
                    usual(c);
                }
                batches(c);
                several(c);
                c.commit();
            }
        }
        try (Connection c = connect(); Connection other = connect()) {
            c.setAutoCommit(false);
            Statement f = c.createStatement(ResultSet.TYPE_FORWARD_ONLY, ResultSet.CONCUR_READ_ONLY);
            f.setFetchSize(5);
            for (int i = 0; i < 3; i++) rows(f.executeQuery("SELECT id, balance FROM account WHERE id < 23 ORDER BY id"));
            PreparedStatement p = c.prepareStatement("SELECT id, owner FROM account WHERE id > ? ORDER BY id");
            p.setFetchSize(7);
            for (int i = 0; i < 3; i++) { set(p, 20 + i); rows(p.executeQuery()); }
            p.setMaxRows(3);
            rows(p.executeQuery());
            Statement scroll = c.createStatement(ResultSet.TYPE_SCROLL_INSENSITIVE, ResultSet.CONCUR_UPDATABLE);
            ResultSet r = scroll.executeQuery("SELECT id, owner, balance FROM account WHERE id < 6 ORDER BY id");
            r.absolute(3); r.updateString("owner", "updated"); r.updateRow(); r.first(); System.out.println(r.getInt(1)); r.last(); r.deleteRow();
            r.moveToInsertRow(); r.updateInt("id", 700); r.updateString("owner", "inserted"); r.insertRow();
            c.rollback();
            Savepoint a = c.setSavepoint(), b = c.setSavepoint("named");
            tried(other, () -> System.out.println(other.createStatement().executeUpdate("UPDATE account SET balance = 3 WHERE id = 40")));
            try { c.createStatement().executeUpdate("INSERT INTO account VALUES (5, 'x')"); } catch (SQLException error) { told(error); c.rollback(b); }
            rows(c.createStatement().executeQuery("SELECT balance FROM account WHERE id = 40"));
            c.releaseSavepoint(a);
            c.commit();
            String[] wrong = {"SELECT nope FROM account", "SELECT 'ü', nope FROM account WHERE id = 1", "SELECT id FROM account WHERE nope = 1", "SELECT 1/0 FROM account", "SELEC", "INSERT INTO entry VALUES (999, 1)", "UPDATE account SET owner = NULL WHERE id = 1"};
            for (String text : wrong) for (int i = 0; i < 3; i++) tried(c, () -> { Statement s = c.createStatement(); if (s.execute(text)) rows(s.getResultSet()); });
            c.setAutoCommit(true);
            PreparedStatement star = c.prepareStatement("SELECT * FROM account WHERE id = ?"), typed = c.prepareStatement("SELECT owner FROM account WHERE id = ?");
            for (int i = 0; i < 7; i++) ask(star, 3);
            for (String text : new String[] {"ALTER TABLE account ADD COLUMN added int DEFAULT 3", "ALTER TABLE account ALTER COLUMN added TYPE text", "ALTER TABLE entry DROP CONSTRAINT entry_account_fkey",
                    "ALTER TABLE account ALTER COLUMN id TYPE bigint", "ALTER TABLE account DROP COLUMN added", "CREATE TEMP TABLE account AS SELECT 3 AS id, 'temporary' AS owner", "DROP TABLE pg_temp.account",
                    "SET search_path TO public", "RESET search_path", "DEALLOCATE ALL", "DISCARD ALL"}) {
                tried(c, () -> c.createStatement().execute(text));
                for (int i = 0; i < 3; i++) { tried(c, () -> ask(star, 3)); tried(c, () -> ask(typed, 3)); }
                c.setAutoCommit(false);
                tried(c, () -> ask(star, 3));
                tried(c, () -> ask(typed, 3));
                c.commit();
                c.setAutoCommit(true);
            }
            PreparedStatement many = c.prepareStatement("SELECT id, tags, extra, opened FROM account WHERE id = ANY (?) ORDER BY id");
            for (int i = 0; i < 7; i++) { many.setArray(1, c.createArrayOf("int4", new Integer[] {1, i, 30})); rows(many.executeQuery()); }
            PreparedStatement nulls = c.prepareStatement("INSERT INTO account (id, owner, balance, opened, tags) VALUES (?, ?, ?, ?, ?)");
            nulls.setInt(1, 800); nulls.setString(2, "nulls"); nulls.setBigDecimal(3, new BigDecimal("1.5")); nulls.setNull(4, Types.TIMESTAMP_WITH_TIMEZONE); nulls.setArray(5, c.createArrayOf("text", new String[] {"a", null}));
            System.out.println(nulls.executeUpdate());
            for (int i = 0; i < 7; i++) ask(star, 800);
            PreparedStatement bytes = c.prepareStatement("INSERT INTO blob VALUES (?::uuid, ?)");
            bytes.setString(1, "00000000-0000-0000-0000-0000000000aa"); bytes.setBytes(2, new byte[3000000]); System.out.println(bytes.executeUpdate());
            PreparedStatement big = c.prepareStatement("SELECT body, id FROM blob WHERE id = ?::uuid");
            for (int i = 0; i < 7; i++) { set(big, "00000000-0000-0000-0000-0000000000aa"); ResultSet one = big.executeQuery(); one.next(); System.out.println(one.getBytes(1).length); }
            PGConnection pg = c.unwrap(PGConnection.class);
            System.out.println(pg.getCopyAPI().copyIn("COPY keyless FROM STDIN", new StringReader("50\tx\n51\t\\N\n")));
            StringWriter out = new StringWriter();
            System.out.println(pg.getCopyAPI().copyOut("COPY (SELECT a, b FROM keyless WHERE a > 8 ORDER BY a) TO STDOUT CSV", out) + out.toString());
            tried(c, () -> { try { pg.getCopyAPI().copyIn("COPY account FROM STDIN", new StringReader("x\n")); } catch (java.io.IOException error) { throw new SQLException(error); } });
            c.createStatement().execute("LISTEN jdbc_channel");
            other.createStatement().execute("NOTIFY jdbc_channel, 'hello'");
            System.out.println(pg.getNotifications(60000)[0].getParameter());
            Statement slow = c.createStatement();
            Thread cancels = new Thread(() -> {
                try {
                    for (int n = 0; n == 0;) {
                        ResultSet one = other.createStatement().executeQuery("SELECT count(*) FROM pg_stat_activity WHERE wait_event = 'PgSleep' AND usename = current_user");
                        one.next();
                        n = one.getInt(1);
                    }
                    slow.cancel();
                } catch (SQLException error) {
                    told(error);
                }
            });
            cancels.start();
            tried(c, () -> slow.execute("SELECT pg_sleep(100)"));
            cancels.join();
            CallableStatement call = c.prepareCall("{? = call upper(?)}");
            call.registerOutParameter(1, Types.VARCHAR); call.setString(2, "called"); call.execute(); System.out.println(call.getString(1));
            DatabaseMetaData meta = c.getMetaData();
            rows(meta.getPrimaryKeys(null, "jdbc", "account")); rows(meta.getColumns(null, "jdbc", "entry", "%"));
            System.out.println(c.isValid(60));
        }
        System.out.println("end");
    }
}
