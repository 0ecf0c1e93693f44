import java.lang.management.ManagementFactory;
import java.lang.management.ThreadMXBean;
import java.sql.Connection;
import java.sql.DriverManager;
import java.sql.PreparedStatement;
import java.sql.ResultSet;
import java.sql.SQLException;
import java.util.Arrays;
import java.util.EnumMap;
import java.util.Map;
import java.util.stream.LongStream;

/**
 * Times the table of indexes.cpp in H2, a database in Java, in memory: `H2Side ROWS [ROUNDS]`. It draws the same keys in the same order,
 * and does the same batches of prepared statements. Each figure is a line: what was done, and the microseconds. The last line is the sum
 * of what was read, which must be that of `indexes`. `H2Side --version` says which H2 and Java these are.
 *
 * The time is the processor's, of this thread alone: Java compiles and collects memory in others. Rounds that are not timed go before,
 * so that what is timed is compiled by then.
 *
 * The indexes beside the key's are ordered. H2 2.1 reads `create hash index`, but makes of it the index that it makes without `hash`.
 */
public final class H2Side {
    private static final int ROUNDS = 7, UNTIMED_FOR_EACH = 2, STATEMENTS = 10_000, MOST_NEW = 2_000;
    private static final ThreadMXBean CLOCK = ManagementFactory.getThreadMXBean();

    private enum Kind {
        BY_KEY("select by key", "select * from t where id = ?"),
        BY_NUMBER("select by hash of a number", "select * from t where n = ?"),
        BY_TEXT("select by hash of a text", "select * from t where s = ?"),
        INSERT("insert", "insert into t values (?, ?, ?)"),
        UPDATE("update of both", "update t set n = ?, s = ? where id = ?"),
        REMOVE("delete", "delete from t where id = ?");

        final String what, line;

        Kind(String what, String line) {
            this.what = what;
            this.line = line;
        }

        boolean reads() {
            return compareTo(INSERT) < 0;
        }
    }

    /** A row by its key, with its first values or with others. */
    private static final class Row {
        final long id, n;
        final String s;

        Row(long key, boolean isFirst) {
            id = key;
            n = isFirst ? key / 2 : -1 - key / 2;
            StringBuilder text = new StringBuilder();
            for (int i = 0; i < 8; i++)
                text.append((char) ('a' + ((isFirst ? key : ~key) >> 3 * i & 7)));
            s = text.toString();
        }

        static Row[] of(long[] keys, boolean areFirst) {
            return Arrays.stream(keys).mapToObj(key -> new Row(key, areFirst)).toArray(Row[]::new);
        }
    }

    /** Keys that are drawn as timing.h and indexes.cpp draw them. Those in the table are even, and new ones are odd. */
    private static final class Draws {
        private long state = 88172645463325252L;

        long below(long most) {
            state ^= state << 13;
            state ^= state >>> 7;
            state ^= state << 17;
            return Long.remainderUnsigned(state, most);
        }

        long[] shuffled(int count, long factor, long more) {
            long[] keys = new long[count];
            for (int i = 0; i < count; i++) {
                int other = (int) below(i + 1);
                keys[i] = keys[other];
                keys[other] = factor * i + more;
            }
            return keys;
        }

        long[] keys(Kind of, int rows) {
            if (of.reads())
                return LongStream.generate(() -> 2 * below(rows)).limit(STATEMENTS).toArray();
            int most = Math.min(rows, MOST_NEW);
            return shuffled(most, rows / most * 2, of == Kind.UPDATE ? 0 : 1);
        }
    }

    private final Connection database = DriverManager.getConnection("jdbc:h2:mem:");
    private final Map<Kind, PreparedStatement> statements = new EnumMap<>(Kind.class);
    private long sum = 0;

    private H2Side() throws SQLException {
        for (String line : new String[] { "create table t (id bigint primary key, n bigint, s varchar)", "create index by_n on t (n)",
                                          "create index by_s on t (s)" })
            database.createStatement().execute(line);
        for (Kind of : Kind.values())
            statements.put(of, database.prepareStatement(of.line));
    }

    private static void bind(PreparedStatement to, Kind of, Row with) throws SQLException {
        int number = of == Kind.INSERT ? 2 : 1, key = of == Kind.UPDATE ? 3 : 1;
        if (of != Kind.BY_NUMBER && of != Kind.BY_TEXT)
            to.setLong(key, with.id);
        if (of == Kind.BY_NUMBER || of == Kind.INSERT || of == Kind.UPDATE)
            to.setLong(number, with.n);
        if (of == Kind.BY_TEXT || of == Kind.INSERT || of == Kind.UPDATE)
            to.setString(of == Kind.BY_TEXT ? 1 : number + 1, with.s);
    }

    private void work(Kind of, Row with) throws SQLException {
        PreparedStatement statement = statements.get(of);
        bind(statement, of, with);
        if (!of.reads()) {
            if (statement.executeUpdate() != 1)
                throw new SQLException(of.what + " changes no row");
            return;
        }
        try (ResultSet rows = statement.executeQuery()) {
            while (rows.next())
                sum += rows.getLong(1) * 31 + rows.getLong(2) * 7 + rows.getString(3).charAt(0);
        }
    }

    /** The nanoseconds of these statements. */
    private long batch(Kind of, Row[] rows) throws SQLException {
        long before = CLOCK.getCurrentThreadCpuTime();
        for (Row row : rows)
            work(of, row);
        return CLOCK.getCurrentThreadCpuTime() - before;
    }

    /** The microseconds of a statement. What is changed is changed back. */
    private double statement(Kind of, long[] keys) throws SQLException {
        Row[] first = Row.of(keys, true), with = Row.of(keys, of != Kind.UPDATE);
        long took = 0, done = 0;
        for (; done < STATEMENTS; done += keys.length) {
            if (of == Kind.REMOVE)
                batch(Kind.INSERT, first);
            took += batch(of, with);
            if (of == Kind.INSERT)
                batch(Kind.REMOVE, first);
            if (of == Kind.UPDATE)
                batch(Kind.UPDATE, first);
        }
        return took / 1e3 / done;
    }

    private double best(Kind of, int rows, int rounds, Draws draws) throws SQLException {
        double best = Double.MAX_VALUE;
        for (int round = 0; round < rounds; round++)
            best = Math.min(best, statement(of, draws.keys(of, rows)));
        return best;
    }

    private void run(int rows, int rounds) throws SQLException {
        Draws draws = new Draws(), others = new Draws();
        batch(Kind.INSERT, Row.of(draws.shuffled(rows, 2, 0), true));
        for (Kind of : Kind.values())
            best(of, rows, UNTIMED_FOR_EACH * rounds, others);
        sum = 0;
        for (Kind of : Kind.values())
            System.out.println(of.what + "\t" + best(of, rows, rounds, draws));
        System.out.println("sum\t" + Long.toUnsignedString(sum));
    }

    public static void main(String[] words) throws SQLException {
        H2Side side = new H2Side();
        String version = side.database.getMetaData().getDatabaseProductVersion().split(" ")[0];
        if (words[0].equals("--version"))
            System.out.println("H2 " + version + " (Java " + System.getProperty("java.version") + ")");
        else
            side.run(Integer.parseInt(words[0]), words.length > 1 ? Integer.parseInt(words[1]) : ROUNDS);
    }
}
