// JDBC, as bench/clients/cases.py asks it.
import java.io.BufferedReader;
import java.io.InputStreamReader;
import java.io.PrintStream;
import java.sql.Connection;
import java.sql.DriverManager;
import java.sql.PreparedStatement;
import java.sql.SQLException;
import java.sql.Savepoint;
import java.sql.Statement;
import java.util.HashMap;
import java.util.Map;
import org.postgresql.PGConnection;
import org.postgresql.PGNotification;

public class Jdbc {
    public static void main(String[] words) throws Exception {
        String where = "jdbc:postgresql://127.0.0.1:" + words[0] + "/" + words[1]
            + "?user=me&sslmode=disable&preferQueryMode=simple";
        Map<String, Connection> connections = new HashMap<>();
        BufferedReader in = new BufferedReader(new InputStreamReader(System.in, "UTF-8"));
        PrintStream out = new PrintStream(System.out, true, "UTF-8");
        for (String line = in.readLine(); line != null; line = in.readLine()) {
            String[] parts = line.split(" ", 3);
            Connection connection = connections.get(parts[1]);
            try {
                switch (parts[0]) {
                case "open":
                    connections.put(parts[1], DriverManager.getConnection(where));
                    break;
                case "run":
                    try (Statement statement = connection.createStatement()) {
                        statement.setEscapeProcessing(false);
                        statement.execute(parts[2]);
                    }
                    break;
                case "own":
                    own(connection);
                    break;
                case "get":
                    String[] bounds = parts[2].split(" ");
                    get(out, connection.unwrap(PGConnection.class), Integer.parseInt(bounds[0]), Integer.parseInt(bounds[1]));
                    break;
                case "close":
                    connections.remove(parts[1]).close();
                    break;
                }
                out.println("ok");
            } catch (SQLException error) {
                out.println("error " + error.getMessage().replaceAll("\\s+", " "));
            }
        }
        System.exit(0);
    }

    static void own(Connection connection) throws SQLException {
        if (!connection.isValid(10) || connection.getTransactionIsolation() != Connection.TRANSACTION_READ_COMMITTED) {
            throw new SQLException("not valid");
        }
        connection.setAutoCommit(false);
        try (Statement statement = connection.createStatement()) {
            statement.execute("NOTIFY c, 'never'");
            connection.rollback();
            statement.execute("NOTIFY c, 'kept'");
            connection.commit();
        }
        connection.setReadOnly(true);
        try (PreparedStatement statement = connection.prepareStatement("SELECT pg_listening_channels()")) {
            Savepoint savepoint = connection.setSavepoint();
            statement.execute();
            connection.rollback(savepoint);
            connection.commit();
        }
        connection.setReadOnly(false);
        connection.setAutoCommit(true);
        try (PreparedStatement statement = connection.prepareStatement("SELECT pg_notify(?, ?)")) {
            statement.setString(1, "c");
            statement.setString(2, "behind");
            statement.execute();
        }
    }

    static void get(PrintStream out, PGConnection connection, int count, int ms) throws SQLException {
        long until = System.nanoTime() + ms * 1000000L;
        for (long left = ms; count > 0 && left > 0; left = (until - System.nanoTime()) / 1000000) {
            PGNotification[] notes = connection.getNotifications((int) left);
            for (int i = 0; notes != null && i < notes.length; i++, count--) {
                out.println(notes[i].getPID() + " " + notes[i].getName() + " " + notes[i].getParameter());
            }
        }
    }
}
