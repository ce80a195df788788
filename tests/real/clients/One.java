// MariaDB Connector/J: java -cp JAR One.java PREPARED HOST PORT USER PASSWORD.
import java.sql.*;

public class One {
    interface Test { String run() throws Exception; }

    static void show(String name, Test test) {
        String wrong;
        try { wrong = test.run(); } catch (Exception error) { wrong = error.toString().replace('\n', ' '); }
        System.out.println(name + ": " + (wrong == null ? "ok" : wrong.substring(0, Math.min(120, wrong.length()))));
    }

    static String want(Object found, Object wanted) { return found.toString().equals(wanted.toString()) ? null : found + " in place of " + wanted; }

    public static void main(String[] args) throws Exception {
        Connection link;
        try {
            link = DriverManager.getConnection("jdbc:mariadb://" + args[1] + ":" + args[2] + "/?useServerPrepStmts=" + args[0], args[3], args[4]);
        } catch (SQLException error) {
            System.out.println("login: " + error.getMessage());
            return;
        }
        Statement statement = link.createStatement();
        show("select", () -> { ResultSet found = statement.executeQuery("SELECT 41 + 1"); found.next(); return want(found.getInt(1), 42); });
        show("write", () -> {
            statement.execute("DROP TABLE IF EXISTS d.stacks");
            statement.execute("CREATE TABLE d.stacks (id INT PRIMARY KEY AUTO_INCREMENT, v VARCHAR(40)) ENGINE=InnoDB CHARACTER SET utf8mb4");
            statement.execute("INSERT INTO d.stacks (v) VALUES ('a'), ('b')");
            ResultSet found = statement.executeQuery("SELECT COUNT(*) FROM d.stacks"); found.next(); return want(found.getInt(1), 2);
        });
        show("rollback", () -> {
            link.setAutoCommit(false); statement.execute("INSERT INTO d.stacks (v) VALUES ('c')"); link.rollback(); link.setAutoCommit(true);
            ResultSet found = statement.executeQuery("SELECT COUNT(*) FROM d.stacks"); found.next(); return want(found.getInt(1), 2);
        });
        show("error", () -> { try { statement.execute("SELEC 1"); } catch (SQLException error) { return want(error.getErrorCode(), 1064); } return "no error"; });
        show("text", () -> { ResultSet found = statement.executeQuery("SELECT 'gr\u00fc\u00dfe'"); found.next(); return want(found.getString(1), "gr\u00fc\u00dfe"); });
        statement.execute("SET SESSION max_recursive_iterations = 30000");
        show("rows", () -> {
            ResultSet found = statement.executeQuery("WITH RECURSIVE n(i) AS (SELECT 1 UNION ALL SELECT i + 1 FROM n WHERE i < 20000) SELECT i FROM n");
            int count = 0; while (found.next()) count++; return want(count, 20000);
        });
        show("prepared", () -> { PreparedStatement s = link.prepareStatement("SELECT ? + 1"); s.setInt(1, 41); ResultSet found = s.executeQuery(); found.next(); String wrong = want(found.getInt(1), 42); s.close(); return wrong; });
        show("ping", () -> link.isValid(5) ? null : "no answer");
        if (args[0].equals("true")) statements(link, statement);
        link.close();
    }

    // Statements that are prepared at the server: values of several types, 20 MB, a hundred at once, a transaction.
    static void statements(Connection link, Statement plain) throws Exception {
        plain.execute("DROP TABLE IF EXISTS d.p");
        plain.execute("CREATE TABLE d.p (i BIGINT, u BIGINT UNSIGNED, f DOUBLE, c DECIMAL(20,4), t VARCHAR(60), w DATETIME(6), n INT, b LONGBLOB) CHARACTER SET utf8mb4");
        java.math.BigDecimal u = new java.math.BigDecimal("18446744073709551615"), c = new java.math.BigDecimal("12345678901234.5678");
        Timestamp w = Timestamp.valueOf("2024-02-29 12:34:56.25");
        show("types", () -> {
            PreparedStatement s = link.prepareStatement("INSERT INTO d.p (i, u, f, c, t, w, n) VALUES (?, ?, ?, ?, ?, ?, ?)");
            for (long i = -5; i <= 6; i += 11) {
                s.setLong(1, i); s.setBigDecimal(2, u); s.setDouble(3, 1.5); s.setBigDecimal(4, c); s.setString(5, "gr\u00fc\u00dfe"); s.setTimestamp(6, w); s.setNull(7, Types.INTEGER);
                s.execute();
            }
            s = link.prepareStatement("SELECT i, u, f, c, t, w, n FROM d.p WHERE i = ?");
            for (long i = -5; i <= 6; i += 11) {
                s.setLong(1, i);
                ResultSet found = s.executeQuery(); found.next();
                String wrong = want(found.getLong(1) + " " + found.getBigDecimal(2) + " " + found.getDouble(3) + " " + found.getBigDecimal(4) + " " + found.getString(5) + " " + found.getTimestamp(6) + " " + found.getObject(7),
                    i + " " + u + " 1.5 " + c + " gr\u00fc\u00dfe " + w + " null");
                if (wrong != null) return wrong;
            }
            return null;
        });
        show("blob", () -> {
            byte[] whole = new byte[20 << 20];
            for (int k = 0; k < whole.length; k++) whole[k] = (byte) ('a' + (k >> 20));
            PreparedStatement s = link.prepareStatement("INSERT INTO d.p (i, b) VALUES (7, ?)");
            s.setBlob(1, new java.io.ByteArrayInputStream(whole)); s.execute();
            s = link.prepareStatement("SELECT b FROM d.p WHERE i = ?"); s.setInt(1, 7);
            ResultSet found = s.executeQuery(); found.next();
            return want(java.util.Arrays.equals(found.getBytes(1), whole), true);
        });
        show("hundred", () -> {
            PreparedStatement[] all = new PreparedStatement[100];
            for (int k = 0; k < 100; k++) all[k] = link.prepareStatement("SELECT ? + " + k);
            for (int k = 0; k < 300; k++) {
                all[k % 100].setInt(1, 1000 * (k / 100));
                ResultSet found = all[k % 100].executeQuery(); found.next();
                String wrong = want(found.getInt(1), 1000 * (k / 100) + k % 100);
                if (wrong != null) return wrong;
            }
            return null;
        });
        show("undone", () -> {
            link.setAutoCommit(false);
            PreparedStatement s = link.prepareStatement("INSERT INTO d.p (i) VALUES (?)"); s.setInt(1, 99); s.execute();
            link.rollback(); link.setAutoCommit(true);
            s = link.prepareStatement("SELECT COUNT(*) FROM d.p WHERE i = ?"); s.setInt(1, 99);
            ResultSet found = s.executeQuery(); found.next();
            return want(found.getInt(1), 0);
        });
    }
}
