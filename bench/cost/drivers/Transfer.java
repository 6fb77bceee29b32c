import java.sql.*;
import java.util.Properties;
import java.util.concurrent.ThreadLocalRandom;
import java.util.concurrent.atomic.AtomicLong;

/** Transfers by PostgreSQL's JDBC driver, in threads, for some seconds. Prints how many were committed.
 * Arguments: port, threads, seconds, rows. */
public class Transfer {
    public static void main(String[] its) throws Exception {
        int port = Integer.parseInt(its[0]), threads = Integer.parseInt(its[1]), rows = Integer.parseInt(its[3]);
        double seconds = Double.parseDouble(its[2]);
        Properties properties = new Properties();
        properties.setProperty("user", "postgres");
        properties.setProperty("sslmode", "disable");
        AtomicLong committed = new AtomicLong();
        Connection[] connections = new Connection[threads];
        for (int i = 0; i < threads; i++) {
            connections[i] = DriverManager.getConnection("jdbc:postgresql://127.0.0.1:" + port + "/postgres", properties);
            connections[i].setAutoCommit(false);
            connections[i].setTransactionIsolation(Connection.TRANSACTION_SERIALIZABLE);
        }
        Thread[] all = new Thread[threads];
        long ends = System.nanoTime() + (long) (seconds * 1e9);
        for (int i = 0; i < threads; i++) {
            Connection c = connections[i];
            all[i] = new Thread(() -> {
                try (PreparedStatement look = c.prepareStatement("SELECT abalance FROM pgbench_accounts WHERE aid = ?");
                        PreparedStatement write = c.prepareStatement("UPDATE pgbench_accounts SET abalance = ? WHERE aid = ?")) {
                    while (System.nanoTime() < ends) {
                        try {
                            int one = ThreadLocalRandom.current().nextInt(rows) + 1, other = ThreadLocalRandom.current().nextInt(rows) + 1;
                            int total = 0;
                            for (int key : new int[] {one, other}) {
                                look.setInt(1, key);
                                try (ResultSet r = look.executeQuery()) {
                                    while (r.next()) total += r.getInt(1);
                                }
                            }
                            write.setInt(1, (total + 1) % 1000);
                            write.setInt(2, one);
                            write.executeUpdate();
                            c.commit();
                            committed.incrementAndGet();
                        } catch (SQLException error) {
                            if (!"40001".equals(error.getSQLState()) && !"40P01".equals(error.getSQLState())) throw error;
                            c.rollback();
                        }
                    }
                } catch (SQLException error) {
                    error.printStackTrace();
                    System.exit(1);
                }
            });
            all[i].start();
        }
        for (Thread thread : all) thread.join();
        System.out.println(committed.get());
    }
}
