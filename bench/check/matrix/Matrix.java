import java.io.BufferedReader;
import java.io.InputStreamReader;
import java.sql.*;
import org.postgresql.PGConnection;
import org.postgresql.copy.CopyIn;

/** JDBC's driver as a client of bench/check/proxy_matrix.py: java Matrix PORT. See clients.py. */
public class Matrix {
    static final String SLEEP = "SELECT pg_sleep(60)";
    static Connection connection;
    static long row = 2 + ProcessHandle.current().pid() % 1000;

    static void connect(String port, String mode) throws SQLException {
        String where = "jdbc:postgresql://127.0.0.1:" + port + "/postgres?user=postgres&sslmode=" + mode;
        connection = DriverManager.getConnection(where);
    }

    static String run(String text) throws SQLException {
        try (PreparedStatement its = connection.prepareStatement(text)) {
            if (!its.execute()) return "" + its.getUpdateCount();
            ResultSet rows = its.getResultSet();
            return rows.next() ? rows.getString(1) : "";
        }
    }

    static String cancelled() throws Exception {
        try (Statement its = connection.createStatement()) {
            Thread timer = new Thread(() -> {
                try { Thread.sleep(500); its.cancel(); } catch (Exception e) { }
            });
            timer.start();
            try { its.execute(SLEEP); } finally { timer.join(); }
            return "";
        }
    }

    static String copy() throws Exception {
        CopyIn its = connection.unwrap(PGConnection.class).getCopyAPI().copyIn("COPY copied (id) FROM STDIN");
        for (int i = 0; i < 100; i++) {
            byte[] one = {'1', '\n'};
            its.writeToCopy(one, 0, 2);
            its.flushCopy();
            Thread.sleep(100);
        }
        return "" + its.endCopy();
    }

    static String quoted(String text) {
        return text == null ? "null" : '"' + text.replace("\\", "\\\\").replace("\"", "\\\"").replaceAll("\\s+", " ") + '"';
    }

    static String called(String name, String port) throws Exception {
        switch (name) {
            case "connect": connect(port, "disable"); return "";
            case "connect_tls": connect(port, "require"); return "";
            case "close": connection.close(); return "";
            case "ask": return run("SELECT n FROM matrix WHERE id = 1");
            case "begin": connection.setAutoCommit(false); return "";
            case "write": return run("UPDATE matrix SET n = n + 1 WHERE id = " + row);
            case "commit": connection.commit(); connection.setAutoCommit(true); return "";
            case "sleep": return run(SLEEP);
            case "cancelled": return cancelled();
            case "copy": return copy();
            default: throw new IllegalArgumentException(name);
        }
    }

    public static void main(String[] args) throws Exception {
        BufferedReader in = new BufferedReader(new InputStreamReader(System.in));
        for (String line = in.readLine(); line != null; line = in.readLine()) {
            try {
                System.out.println("{\"ok\": " + quoted(called(line.trim(), args[0])) + "}");
            } catch (Exception error) {
                String state = error instanceof SQLException ? ((SQLException) error).getSQLState() : null;
                System.out.println("{\"error\": " + quoted(error.getClass().getSimpleName()) + ", \"state\": " + quoted(state)
                    + ", \"text\": " + quoted(error.getMessage()) + "}");
            }
            System.out.flush();
        }
    }
}
