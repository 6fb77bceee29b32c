import java.io.BufferedReader;
import java.io.InputStreamReader;
import java.sql.*;
import java.util.HashMap;
import java.util.Map;
import java.util.Properties;

/** Each way to set an isolation level that JDBC has; levels.py says what it reads and prints. */
public class Levels {
    static Connection connect(String user, String options) throws SQLException {
        Properties its = new Properties();
        its.setProperty("user", user);
        its.setProperty("sslmode", "disable");
        if (options != null) its.setProperty("options", options);
        return DriverManager.getConnection("jdbc:postgresql://127.0.0.1:" + System.getenv("PGPORT") + "/postgres", its);
    }

    static void read(Connection c, int number) throws SQLException {
        for (int id : new int[] {number, number + 100}) {
            try (PreparedStatement s = c.prepareStatement("SELECT id FROM way WHERE id = ?")) {
                s.setInt(1, id);
                s.executeQuery().next();
            }
        }
        try (Statement s = c.createStatement(); ResultSet r = s.executeQuery("SHOW transaction_isolation")) {
            r.next();
            System.out.println(number + " " + r.getString(1));
        }
    }

    /** As a pool does: the level is set for each transaction, outside of it; then as a program that sets it in it. */
    static void own(Connection c, Connection other) throws SQLException {
        int[] levels = {Connection.TRANSACTION_READ_COMMITTED, Connection.TRANSACTION_REPEATABLE_READ,
            Connection.TRANSACTION_SERIALIZABLE};
        for (int i = 0; i < 3; i++) {
            c.setTransactionIsolation(levels[i]);
            c.setAutoCommit(false);
            read(c, 50 + i);
            c.commit();
            c.setAutoCommit(true);
            other.setTransactionIsolation(levels[i]); // between transactions, without autocommit
            read(other, 60 + i);
            other.commit();
        }
    }

    public static void main(String[] arguments) throws Exception {
        String user = System.getenv("PGUSER");
        Connection own = connect(user, null), other = connect(user, null);
        other.setAutoCommit(false);
        Map<String, Connection> connections = new HashMap<>();
        connections.put("plain", connect(user, null));
        connections.put("options", connect(user, "-c default_transaction_isolation=serializable"));
        connections.put("role", connect(user + "_role", null));
        BufferedReader in = new BufferedReader(new InputStreamReader(System.in));
        for (String line; (line = in.readLine()) != null; ) {
            if (line.equals("own")) {
                own(own, other);
            } else {
                String[] parts = line.split(" ", 3);
                Connection c = connections.get(parts[0]);
                try (Statement s = c.createStatement()) {
                    for (String text : parts[2].split("; ")) s.execute(text);
                    read(c, Integer.parseInt(parts[1]));
                    s.execute("COMMIT");
                }
            }
            System.out.println("done");
        }
    }
}
