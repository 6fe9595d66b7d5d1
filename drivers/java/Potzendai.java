import java.io.ByteArrayOutputStream;
import java.io.File;
import java.io.IOException;
import java.io.OutputStream;
import java.io.UncheckedIOException;
import java.nio.charset.StandardCharsets;
import java.nio.file.AccessDeniedException;
import java.nio.file.FileSystemException;
import java.nio.file.Files;
import java.nio.file.InvalidPathException;
import java.nio.file.NoSuchFileException;
import java.nio.file.Path;
import java.util.ArrayList;
import java.util.Arrays;
import java.util.Comparator;
import java.util.EnumMap;
import java.util.HashMap;
import java.util.HashSet;
import java.util.LinkedHashMap;
import java.util.List;
import java.util.Map;
import java.util.Set;
import java.util.Timer;
import java.util.TimerTask;
import java.util.TreeMap;
import java.util.TreeSet;
import java.util.concurrent.ConcurrentHashMap;
import java.util.concurrent.ConcurrentMap;
import java.util.concurrent.ConcurrentNavigableMap;
import java.util.concurrent.ConcurrentSkipListMap;
import java.util.concurrent.ExecutionException;
import java.util.concurrent.ExecutorService;
import java.util.concurrent.Executors;
import java.util.concurrent.Future;
import java.util.concurrent.TimeoutException;
import java.util.concurrent.atomic.AtomicInteger;
import java.util.concurrent.atomic.AtomicLong;
import java.util.concurrent.atomic.AtomicReferenceArray;
import java.util.concurrent.locks.LockSupport;
import java.util.concurrent.locks.ReentrantLock;
import java.util.function.Supplier;
import java.util.regex.Pattern;
import java.util.stream.Collectors;

/**
 * Tests an ordered map of your own. Threads call its functions, and what they do is recorded. The program {@code bench} judges each recording, or
 * follows one stream. Copy this file: it needs only Java 17 and the program.
 *
 * <pre>
 * public static void main(String[] words) {
 *     System.exit(Potzendai.run("mine", () -> Potzendai.of(new MyConcurrentMap()), words));
 * }
 * </pre>
 *
 * or, from any test, {@code Potzendai.check("mine", () -> .., "--seconds", "5")}, which throws with the explanation.
 */
public final class Potzendai {
    /**
     * A map of numbers. Any function except {@code get} and {@code put} may be left as it is; then it is not called. A function answers what
     * {@link Said} has. An {@link IOException}, {@link UncheckedIOException} or {@link TimeoutException} means that nobody knows whether it was done.
     * Nothing else changes the map.
     */
    public interface Index {
        /** What one thread calls instead of the map. It is closed at the end of a run. */
        default Index connection() { return this; }
        /** Closes a connection at the end of a run, and a map after its last use. */
        default void close() { }
        /** For {@code --reopen}: closes the map at rest, and returns it opened again, with what it held. */
        default Index reopen() throws Exception { throw new UnsupportedOperationException(); }
        /** The value. */
        Said get(long key) throws Exception;
        /** The value before. */
        Said put(long key, long value) throws Exception;
        /** The value before. */
        default Said del(long key) throws Exception { throw new UnsupportedOperationException(); }
        /** The pairs of one moment, both ends included, by rising keys. */
        default Said scan(long low, long high) throws Exception { throw new UnsupportedOperationException(); }
        /** The value found; or DONE if it was replaced, OTHER if it was not. */
        default Said replace(long key, long old, long value) throws Exception { throw new UnsupportedOperationException(); }
        /** NONE if it was put, otherwise the value found. */
        default Said putIfAbsent(long key, long value) throws Exception { throw new UnsupportedOperationException(); }
        /** The greatest pair up to the key. */
        default Said floor(long key) throws Exception { throw new UnsupportedOperationException(); }
        /** The least pair from the key on. */
        default Said ceiling(long key) throws Exception { throw new UnsupportedOperationException(); }
        /** The least pair, which is removed. */
        default Said popFirst() throws Exception { throw new UnsupportedOperationException(); }
    }

    /** The words that a function may answer. FOUND does not report the value, and UNKNOWN leaves the call open. */
    public enum Word { TOLD, NONE, DONE, FOUND, OTHER, REFUSED, UNKNOWN }

    /** What a function of the map answers. */
    public record Said(Word word, long key, long value, List<long[]> pairs) {
        public static final Said NONE = new Said(Word.NONE), DONE = new Said(Word.DONE), FOUND = new Said(Word.FOUND),
            OTHER = new Said(Word.OTHER), REFUSED = new Said(Word.REFUSED), UNKNOWN = new Said(Word.UNKNOWN);

        private Said(Word word) { this(word, 0, 0, null); }
        /** The value that there was, or NONE for null. */
        public static Said told(Long value) { return value == null ? NONE : new Said(Word.TOLD, 0, value, null); }
        /** The pair that there was, or NONE for null. */
        public static Said told(Map.Entry<Long, Long> pair) {
            return pair == null ? NONE : new Said(Word.TOLD, pair.getKey(), pair.getValue(), null);
        }
        /** A pair of which only the key is reported. */
        public static Said found(long key) { return new Said(Word.FOUND, key, 0, null); }
        /** The pairs of a scan, by rising keys. */
        public static Said pairs(Map<Long, Long> pairs) {
            return new Said(Word.TOLD, 0, 0, pairs.entrySet().stream().map(e -> new long[] {e.getKey(), e.getValue()}).toList());
        }
        boolean tells() { return word == Word.TOLD || word == Word.NONE; }
    }

    /** Any map of java.util.concurrent. */
    private static class OfMap implements Index {
        private final ConcurrentMap<Long, Long> map;
        OfMap(ConcurrentMap<Long, Long> map) { this.map = map; }
        @Override public Said get(long key) { return Said.told(map.get(key)); }
        @Override public Said put(long key, long value) { return Said.told(map.put(key, value)); }
        @Override public Said del(long key) { return Said.told(map.remove(key)); }
        @Override public Said replace(long key, long old, long value) { return map.replace(key, old, value) ? Said.DONE : Said.OTHER; }
        @Override public Said putIfAbsent(long key, long value) { return Said.told(map.putIfAbsent(key, value)); }
    }

    /** The map does not promise that a range is of one moment, so ranges are no scans; steps are. */
    private static class OfNavigableMap extends OfMap {
        final ConcurrentNavigableMap<Long, Long> map;
        OfNavigableMap(ConcurrentNavigableMap<Long, Long> map) { super(map); this.map = map; }
        @Override public Said floor(long key) { return Said.told(map.floorEntry(key)); }
        @Override public Said ceiling(long key) { return Said.told(map.ceilingEntry(key)); }
        @Override public Said popFirst() { return Said.told(map.pollFirstEntry()); }
    }

    private static final class OfRanges extends OfNavigableMap {
        OfRanges(ConcurrentNavigableMap<Long, Long> map) { super(map); }
        @Override public Said scan(long low, long high) { return Said.pairs(map.subMap(low, true, high, true)); }
    }

    public static Index of(ConcurrentMap<Long, Long> map) { return new OfMap(map); }
    public static Index of(ConcurrentNavigableMap<Long, Long> map) { return new OfNavigableMap(map); }
    /** The map with its ranges as scans of a moment, which those of java.util.concurrent are not. */
    public static Index ofRanges(ConcurrentNavigableMap<Long, Long> map) { return new OfRanges(map); }

    /** The functions, each with its name in words, its usual share, and its call in a history. */
    private enum Kind {
        GET("get", 40, "get"), PUT("put", 30, "insert"), DEL("del", 10, "remove"), SCAN("scan", 5, "scan"), REPLACE("replace", 10, "replace"),
        PUT_IF_ABSENT("put_if_absent", 5, "insert"), FLOOR("floor", 3, "scan"), CEILING("ceiling", 3, "scan"), POP_FIRST("pop_first", 2, "scan");
        final String name, call;
        final long share;
        Kind(String name, long share, String call) { this.name = name; this.share = share; this.call = call; }
        boolean writes() { return this == PUT || this == DEL || this == REPLACE || this == PUT_IF_ABSENT || this == POP_FIRST; }
        boolean isRead() { return this == GET || this == SCAN || this == FLOOR || this == CEILING; }
        /** Whether the answer says which call of a history it was. Of a cache each one does, since the note of a call has its answer. */
        boolean isHeld(boolean isCache) {
            return isCache || this == PUT_IF_ABSENT || this == FLOOR || this == CEILING || this == POP_FIRST;
        }
        static Kind named(String name) {
            return Arrays.stream(values()).filter(kind -> kind.name.equals(name)).findFirst().orElse(null);
        }
    }

    private static final int YES = 0, NO = 1, UNDECIDED = 2, MEMORY = 4, WORDS = 5, FILE = 6;
    private static final List<String> VERDICTS = List.of("yes", "no", "undecided");
    private static final int PROCESSES = 64, CALLS = 4096, SPAN = 16, SELDOM = 20;
    /** The limits of a stream and of its keys; how many stamps a thread may be ahead of what is written; how many characters are written at once. */
    private static final int STREAM_PROCESSES = 65536, STREAM_KEYS = 16384, AHEAD = 8192, BATCH = 65536;
    private static final int RUNNING = 0, OVER = 1, FAILED = 2;
    private static final int REPORT_SHOWN = 1000, KEPT = 1 << 26; // of a report the characters shown, of a stream the bytes kept for a file
    private static final long OWN_VALUES = Long.MIN_VALUE; // under --cache, values from here on are the driver's own
    /** How many calls a stream may have on behalf of one call; how many of its last events keep their notes; how many other open calls are shown. */
    private static final int BESIDE = 32, NOTES = 1000000, OPEN_SHOWN = 6;
    private static final int BATCH_ROUNDS = 64, BATCH_CALLS = 256; // so many rounds are judged together, of so many calls
    private static final String RENUMBERED =
        "here and in the files, events and processes have new numbers. The calls are those \"invoked\" above, by rising event:";
    private static final String AGAIN = "  again (draws the same calls; threads may interleave otherwise): ";
    private static final Set<String> LESS = Set.of("\"done\"", "\"found\"", "\"other\"");
    private static final Map<String, Kind> BREAKS = new LinkedHashMap<>();
    static {
        String[] names = {"drop", "race", "replay", "stale", "zombie", "torn", "cas"};
        Kind[] kinds = {Kind.PUT, Kind.PUT, Kind.PUT, Kind.GET, Kind.DEL, Kind.SCAN, Kind.REPLACE};
        for (int i = 0; i < names.length; i++)
            BREAKS.put(names[i], kinds[i]);
    }

    /** Ends a run with a line and a status. */
    private static final class Stop extends RuntimeException {
        private static final long serialVersionUID = 1;
        final int status;
        Stop(int status, String line) { super(line); this.status = status; }
    }

    // Draws

    /** Steele, Lea and Flood's SplitMix: the number that a state gives. */
    private static long mixed(long state) {
        long z = state + 0x9e3779b97f4a7c15L;
        z = (z ^ z >>> 30) * 0xbf58476d1ce4e5b9L;
        z = (z ^ z >>> 27) * 0x94d049bb133111ebL;
        return z ^ z >>> 31;
    }

    /** Numbers that a seed, a round and a thread decide. */
    private static final class Draws {
        private long state;
        Draws(long seed, long round, long thread) { state = mixed(seed) ^ mixed(round + (1L << 40)) ^ mixed(thread + (1L << 50)); }
        long below(long bound) {
            long drawn = Long.remainderUnsigned(mixed(state), bound);
            state += 0x9e3779b97f4a7c15L;
            return drawn;
        }
    }

    private static final ThreadLocal<Draws> DRAWS = new ThreadLocal<>();
    private static final ThreadLocal<Worker> WORKER = new ThreadLocal<>();
    private static volatile long yields;
    private static volatile boolean hasPoints;

    /** A map's functions may call this at each place where another thread should be able to run: under {@code --yield} it sometimes does. */
    public static void point() {
        if (!hasPoints)
            hasPoints = true;
        giveWay();
    }

    /** A map's read may call this when it has its snapshot. The read counts as answered at that moment, and may read its pairs later. */
    public static void taken() {
        Worker worker = WORKER.get();
        if (worker != null)
            worker.take();
    }

    private static void giveWay() {
        Draws draws = yields > 0 ? DRAWS.get() : null;
        if (draws != null && draws.below(1000) < yields)
            pause(draws);
    }

    private static void pause(Draws draws) {
        if (draws.below(4) != 0)
            Thread.yield();
        else
            LockSupport.parkNanos(1000 + draws.below(50000));
    }

    // What a history has of a call

    /** A call of a history: its name and its words. */
    private record Call(String name, long... words) {
        String text() {
            StringBuilder text = new StringBuilder("[\"").append(name).append('"');
            for (long word : words)
                text.append(',').append(Long.toUnsignedString(word));
            return text.append(']').toString();
        }
        /** The call with its keys moved up. A range ends at the last of this many keys. */
        Call moved(long by, long keys) {
            long[] moved = words.clone();
            moved[0] += by;
            if (name.equals("scan"))
                moved[1] = by + (Long.compareUnsigned(words[1], keys) < 0 ? words[1] : keys - 1);
            return new Call(name, moved);
        }

        /** The call as a report has it. */
        List<?> list() {
            List<Object> list = new ArrayList<>(List.of(name));
            for (long word : words)
                list.add(word);
            return list;
        }

        /** Whether an answer reports what this call puts. Then the call was done. */
        boolean isToldBy(String answer) {
            String value = Long.toUnsignedString(words[words.length - 1]);
            return !name.equals("remove") && answer != null && (answer.equals(value) || answer.contains("," + value + "]"));
        }
    }

    /** A call with its answer as a text, null if it has none. Also a note of the call as it was made, if that is another one, and further calls of
     * the same interval, each by a process of its own. */
    private record Noted(Call call, String answer, String note, List<Noted> beside) {
        Noted(Call call, String answer) { this(call, answer, null, List.of()); }
    }

    private static String pairText(long key, long value) { return "[" + Long.toUnsignedString(key) + "," + Long.toUnsignedString(value) + "]"; }

    private static final long GREATEST = -1;

    /** Whether the function may answer so. */
    private static boolean fits(Kind kind, Said said) {
        boolean isRead = kind == Kind.GET || kind == Kind.SCAN || kind == Kind.FLOOR || kind == Kind.CEILING;
        return switch (said.word) {
            case TOLD -> kind == Kind.SCAN == (said.pairs != null);
            case NONE -> true;
            case DONE -> isRead || kind == Kind.PUT || kind == Kind.DEL || kind == Kind.REPLACE;
            case FOUND -> kind != Kind.SCAN;
            case OTHER -> kind == Kind.REPLACE;
            case REFUSED -> true;
            case UNKNOWN -> kind != Kind.POP_FIRST;
        };
    }

    private static String answerText(Said said) {
        return switch (said.word) {
            case TOLD -> Long.toUnsignedString(said.value);
            case NONE -> "null";
            case UNKNOWN -> null;
            default -> "\"" + said.word.name().toLowerCase() + "\"";
        };
    }

    /** Floor and ceiling are scans from the key to what was found, or to the end. */
    private static Noted edge(Kind kind, long key, Said said) {
        long low = kind == Kind.FLOOR ? 0 : key, high = kind == Kind.FLOOR ? key : GREATEST;
        if (said.word == Word.NONE)
            return new Noted(new Call("scan", low, high), "[]");
        if (said.word == Word.FOUND)
            return new Noted(new Call("get", said.key), "\"found\"");
        if (Long.compareUnsigned(low, said.key) <= 0 && Long.compareUnsigned(said.key, high) <= 0) {
            low = kind == Kind.FLOOR ? said.key : key;
            high = kind == Kind.FLOOR ? key : said.key;
        }
        return new Noted(new Call("scan", low, high), "[" + pairText(said.key, said.value) + "]");
    }

    /** The call and the answer that a history has; null if it is left out, since it reports nothing. */
    private static Noted noted(Kind kind, long[] words, Said said) {
        boolean changes = kind == Kind.PUT || kind == Kind.DEL || kind == Kind.REPLACE;
        boolean isRead = kind == Kind.GET || kind == Kind.SCAN || kind == Kind.FLOOR || kind == Kind.CEILING;
        if (said.word == Word.REFUSED && !changes || isRead && (said.word == Word.DONE || said.word == Word.UNKNOWN))
            return null;
        switch (kind) {
            case FLOOR: case CEILING:
                return edge(kind, words[0], said);
            case POP_FIRST:
                return said.word == Word.NONE ? new Noted(new Call("scan", 0, GREATEST), "[]")
                    : new Noted(new Call("remove", said.key), answerText(said));
            case SCAN:
                if (said.word == Word.NONE)
                    return new Noted(new Call("scan", words), "[]");
                return new Noted(new Call("scan", words), said.pairs.stream().map(pair -> pairText(pair[0], pair[1]))
                    .collect(Collectors.joining(",", "[", "]")));
            case PUT_IF_ABSENT:
                if (said.word == Word.TOLD || said.word == Word.FOUND)
                    return new Noted(new Call("get", words[0]), answerText(said));
                break;
            case REPLACE:
                if (said.word == Word.DONE)
                    return new Noted(new Call("replace", words), Long.toUnsignedString(words[1]));
                break;
            default:
        }
        return new Noted(new Call(kind.call, words), answerText(said));
    }

    /** What a history has of a call of a cache, which may lose any key at any time. A miss is recorded so that the key has no value from then on. So
     * this history has an order if and only if the cache's own has one in which keys may be lost. Late: a miss says nothing. */
    private static Noted recorded(Options options, Kind kind, long[] words, Said said, Supplier<Long> fresh) {
        Noted plain = noted(kind, words, said);
        boolean isNone = said.word == Word.NONE, isLate = "late".equals(options.cache), isPut = kind == Kind.PUT || kind == Kind.PUT_IF_ABSENT;
        if (plain == null || options.cache == null)
            return plain;
        if (isLate && (said.word == Word.OTHER || isNone && !isPut && kind != Kind.DEL))
            return null;
        String before = saidCall(plain.call), none = ", answered none" + (isLate ? "" : ": the key was gone");
        if (isNone && isPut)
            return new Noted(new Call("insert", words), "\"done\"", before + none, List.of());
        if (isNone && (kind == Kind.GET || kind == Kind.DEL || kind == Kind.REPLACE))
            return new Noted(new Call("remove", words[0]), "\"done\"", before + none, List.of());
        if (said.word == Word.OTHER)
            return new Noted(new Call("replace", words[0], words[1], fresh.get()), "\"done\"", before + ", answered another value", List.of());
        if (!plain.call.name.equals("scan"))
            return plain;
        List<long[]> pairs = kind == Kind.SCAN && !isNone ? said.pairs : isNone ? List.of() : List.of(new long[] {said.key, said.value});
        if (isLate) {
            List<Noted> gets = pairs.stream().map(pair -> new Noted(new Call("get", pair[0]), Long.toUnsignedString(pair[1]), before + ", answered "
                + Long.toUnsignedString(pair[0]) + ": " + Long.toUnsignedString(pair[1]), List.of())).toList();
            return gets.isEmpty() ? null : new Noted(gets.get(0).call, gets.get(0).answer, gets.get(0).note, gets.subList(1, gets.size()));
        }
        Set<Long> held = pairs.stream().map(pair -> pair[0]).collect(Collectors.toSet());
        List<Noted> missing = new ArrayList<>();
        for (long key = plain.call.words[0]; key < options.keys && Long.compareUnsigned(key, plain.call.words[1]) <= 0; key++)
            if (!held.contains(key))
                missing.add(new Noted(new Call("remove", key), "\"done\"", before + ", which did not have " + key + ": the key was gone", List.of()));
        return new Noted(plain.call, plain.answer, null, missing);
    }

    /** Whether an answer has a value that --cache needs for its own use. */
    private static boolean hasOwnValue(Said said) {
        return said.word == Word.TOLD && (said.pairs == null ? said.value < 0 : said.pairs.stream().anyMatch(pair -> pair[1] < 0));
    }

    private static Said ask(Options options, Index connection, Kind kind, long... words) {
        Said said = ask(connection, kind, words);
        if (options.cache != null && hasOwnValue(said))
            throw new Stop(WORDS, kind.name + " said a value from 2^63 on, and --cache needs these for its own use");
        return said;
    }

    private static Said ask(Index connection, Kind kind, long... words) {
        try {
            Said said = switch (kind) {
                case GET -> connection.get(words[0]);
                case PUT -> connection.put(words[0], words[1]);
                case DEL -> connection.del(words[0]);
                case SCAN -> connection.scan(words[0], words[1]);
                case REPLACE -> connection.replace(words[0], words[1], words[2]);
                case PUT_IF_ABSENT -> connection.putIfAbsent(words[0], words[1]);
                case FLOOR -> connection.floor(words[0]);
                case CEILING -> connection.ceiling(words[0]);
                case POP_FIRST -> connection.popFirst();
            };
            if (said != null && fits(kind, said))
                return said;
            throw new Stop(WORDS, kind.name + " said " + (said == null ? "nothing" : said.word.name().toLowerCase()) + ", which does not fit it");
        } catch (IOException | UncheckedIOException | TimeoutException unknown) {
            return Said.UNKNOWN;
        } catch (RuntimeException error) {
            throw error;
        } catch (Exception error) {
            throw new IllegalStateException(error);
        }
    }

    // A map that is wrong now and then, around one that may be right: a test of the test

    private static final class Broken implements Index {
        private final Index truly;
        private final String how;
        private final Draws draws;
        private final long keys;
        private final Map<Long, Said> once = new HashMap<>();
        private long[] late;
        private Word style;
        long times; // how often it went wrong

        Broken(Index truly, String how, Draws draws, long keys) { this.truly = truly; this.how = how; this.draws = draws; this.keys = keys; }

        private boolean goesWrong(String name) { return how.equals(name) && draws.below(SELDOM) == 0; }

        /** Makes a put that is still to come, soon. */
        private Index caughtUp() throws Exception {
            if (late != null && draws.below(2) == 1) {
                long[] now = late;
                late = null;
                times++;
                truly.put(now[0], now[1]);
            }
            return truly;
        }

        /** What the put of the map would say if a get says this. */
        private Said inStyle(Said got) {
            return style == Word.DONE ? Said.DONE : style == Word.FOUND && got.word == Word.TOLD ? Said.FOUND : got;
        }

        @Override public void close() { truly.close(); }

        @Override public Said get(long key) throws Exception {
            caughtUp();
            if (once.containsKey(key) && goesWrong("stale")) {
                times++;
                return once.get(key);
            }
            Said said = truly.get(key);
            if (said.tells() && (!once.containsKey(key) || draws.below(4) == 0))
                once.put(key, said);
            return said;
        }

        /** Makes a get and then a put, as if they were one call. If the put reports what it found, the get is of the same key. Otherwise the get is
         * of the key next to it, and what it got is put back. */
        private Said race(long key, long value) throws Exception {
            long beside = style == Word.TOLD || (key ^ 1) >= keys ? key : key ^ 1;
            Said got = truly.get(beside);
            pause(draws);
            if (beside != key && got.word == Word.TOLD)
                truly.put(beside, got.value);
            Said said = truly.put(key, value);
            return beside != key || style == Word.DONE || !got.tells() ? said : inStyle(got);
        }

        @Override public Said put(long key, long value) throws Exception {
            caughtUp();
            if (style != null && goesWrong("race")) {
                times++;
                return race(key, value);
            }
            if (style != null && goesWrong("drop")) {
                Said got = truly.get(key);
                if (got.tells()) {
                    times++;
                    return inStyle(got);
                }
            }
            if (goesWrong("replay"))
                late = new long[] {key, value};
            Said said = truly.put(key, value);
            style = said.word == Word.TOLD || said.word == Word.DONE || said.word == Word.FOUND ? said.word : style;
            return said;
        }

        @Override public Said del(long key) throws Exception {
            caughtUp();
            if (goesWrong("zombie")) {
                Said got = truly.get(key);
                late = got.word == Word.TOLD ? new long[] {key, got.value} : late;
            }
            return truly.del(key);
        }

        @Override public Said scan(long low, long high) throws Exception {
            caughtUp();
            if (low == high || !goesWrong("torn"))
                return truly.scan(low, high);
            Said first = truly.scan(low, (low + high) / 2);
            pause(draws);
            Said second = truly.scan((low + high) / 2 + 1, high);
            if (first.pairs == null || second.pairs == null)
                return first.pairs == null ? first : second;
            times++;
            List<long[]> pairs = new ArrayList<>(first.pairs);
            pairs.addAll(second.pairs);
            return new Said(Word.TOLD, 0, 0, pairs);
        }

        @Override public Said replace(long key, long old, long value) throws Exception {
            caughtUp();
            if (!goesWrong("cas"))
                return truly.replace(key, old, value);
            Said said = truly.put(key, value);
            if (said.word == Word.REFUSED || said.word == Word.UNKNOWN)
                return said;
            times++;
            return Said.DONE;
        }

        @Override public Said putIfAbsent(long key, long value) throws Exception { return caughtUp().putIfAbsent(key, value); }
        @Override public Said floor(long key) throws Exception { return caughtUp().floor(key); }
        @Override public Said ceiling(long key) throws Exception { return caughtUp().ceiling(key); }
        @Override public Said popFirst() throws Exception { return caughtUp().popFirst(); }
    }

    // Threads and what they record

    /** An event: the invocation of a call with its note, or an answer if the call is null. It names the function, unless no thread called one, and
     * what the function said, when the call is over. */
    private record Event(long stamp, int thread, int life, Call call, String answer, String note, String kind, Word said, List<Noted> beside) {
        Event(int process, Call call, String answer, String note) { this(0, process, 0, call, answer, note, null, null, List.of()); }

        /** The two events of a call; there is no second one if the call stays open. */
        static List<Event> of(long begin, long end, int thread, int life, String kind, Word said, Noted noted) {
            Event first = new Event(begin, thread, life, noted.call, null, noted.note, kind, null, noted.beside);
            return noted.answer == null ? List.of(first)
                : List.of(first, new Event(end, thread, life, null, noted.answer, null, kind, said, noted.beside));
        }

        List<Integer> who() { return List.of(thread, life); }
    }

    /** Whether a function changes the key that it is called with. */
    private static boolean writesKey(String kind) {
        return kind != null && (kind.equals("put") || kind.equals("del") || kind.equals("replace") || kind.equals("put_if_absent"));
    }

    /** The number of the round, how many processes a thread may be in turn, what the map holds, and the keys at which calls have no answer. */
    private record Task(long round, int lives, Map<Long, Long> start, Set<Long> doubtful, long valuesFrom) { }

    /** The lock of a key, and whether a call that writes the key has no answer. Such a call may still take effect between a get and the put after
     * it. */
    private static final class KeyLock extends ReentrantLock {
        private static final long serialVersionUID = 1;
        boolean isDoubtful;
    }

    /** One thread: draws calls, makes them, and notes them with the stamps of their beginning and their end. */
    private static final class Worker {
        final int number;
        final Options options;
        final AtomicLong stamps;
        final KeyLock[] locks;
        final EnumMap<Word, Long> sayings = new EnumMap<>(Word.class);
        final EnumMap<Kind, Long> called = new EnumMap<>(Kind.class);
        final Map<Long, Long> seen = new HashMap<>();
        final Map<Long, Said> memory = new HashMap<>();
        List<Event> log;
        Index connection;
        Draws draws;
        long puts, made;
        long valuesFrom; // each put has a value of its own, which was not in the map before
        int life, lives, process;
        boolean closes, isReading; // the last: whether the open call only reads
        Stream stream;
        Broken broken;
        long wrongTimes, marks; // how often the broken maps of before went wrong; how many values no call puts
        Long end; // the stamp at which the snapshot of the open call was taken
        final List<Integer> helpers = new ArrayList<>();

        Worker(int number, Options options, AtomicLong stamps, KeyLock[] locks) {
            this.number = process = number;
            this.options = options;
            this.stamps = stamps;
            this.locks = locks;
        }

        void open(Index map) {
            connection = map.connection();
            closes = connection != map;
            wrongTimes += broken == null ? 0 : broken.times;
            if (options.broken != null)
                connection = broken = new Broken(connection, options.broken, new Draws(options.seed, 0, number), options.keys);
        }

        long wrongTimes() { return wrongTimes + (broken == null ? 0 : broken.times); }

        /** Takes this moment as that of the answer of the open call, if the call only reads. Of several such moments the last one counts. */
        void take() {
            if (!isReading)
                return;
            if (stream != null && end != null)
                stream.put(end, new Happening(List.of(), null, null, false));
            end = stamps.getAndIncrement();
        }

        /** A value that no call puts. */
        private long fresh() { return OWN_VALUES + marks++ * options.threads + number; }

        /** The calls of a round. A process whose answer is unknown makes no further call. */
        List<Event> run(Task task) {
            log = new ArrayList<>();
            made = life = 0;
            valuesFrom = task.valuesFrom;
            WORKER.set(this);
            seen.clear();
            memory.clear();
            for (long key = 0; key < options.keys && options.isVoid("own"); key++)
                if (!task.doubtful.contains(key))
                    memory.put(key, Said.told(task.start.get(key)));
            draws = new Draws(options.seed, task.round, number);
            DRAWS.set(new Draws(options.seed + 1, task.round, number));
            lives = task.lives;
            while (goesOn())
                draw();
            return log;
        }

        /** Whether it may make one more call. */
        private boolean goesOn() {
            boolean isRunning = stream == null || stream.state.get() == RUNNING && process < STREAM_PROCESSES;
            return isRunning && life < lives && (made < options.calls || options.calls == 0);
        }

        private void draw() {
            long place = draws.below(options.total());
            Kind kind = null;
            for (Kind each : Kind.values()) {
                kind = each;
                if (place < options.shares.get(each))
                    break;
                place -= options.shares.get(each);
            }
            long key = drawKey(kind.writes()), value = kind.writes() ? valuesFrom + puts++ * (options.threads + 1) + number : 0;
            long high = kind == Kind.SCAN ? Math.min(key + draws.below(options.span), options.keys - 1) : 0;
            giveWay();
            switch (kind) {
                case SCAN -> { if (options.isSteps) steps(key, high); else make(kind, key, high); }
                case PUT, PUT_IF_ABSENT -> write(kind, key, value);
                case DEL -> write(kind, key);
                case REPLACE -> write(kind, key, seen.getOrDefault(key, 0L), value);
                case POP_FIRST -> make(kind);
                default -> make(kind, key);
            }
        }

        private long drawKey(boolean isWrite) {
            boolean isHot = 0 < options.hot && options.hot < options.keys && draws.below(10) < 9;
            long key = draws.below(isHot ? options.hot : options.keys);
            if (!options.isVoid("own") || !isWrite)
                return key;
            key = key / options.threads * options.threads + number;
            return key < options.keys ? key : number;
        }

        private void steps(long low, long high) {
            while (low <= high && goesOn()) {
                Said said = make(Kind.CEILING, low);
                if (said.word != Word.TOLD || said.key < low)
                    break;
                low = said.key + 1;
            }
        }

        private void write(Kind kind, long... words) {
            if (locks != null)
                locks[(int) words[0]].lock();
            try {
                make(kind, words);
            } finally {
                if (locks != null)
                    locks[(int) words[0]].unlock();
            }
        }

        /** Makes a call between two stamps, and notes it. */
        private Said make(Kind kind, long... words) {
            boolean isVoid = kind == Kind.PUT || kind == Kind.DEL;
            long begin = stamps.getAndIncrement();
            if (stream != null && !kind.isHeld(options.cache != null))
                stream.put(begin, new Happening(List.of(new Part(process, new Call(kind.call, words), null, null)), kind.name, null, false));
            Said got = locks != null && isVoid ? ask(options, connection, Kind.GET, words[0]) : Said.DONE;
            got = options.cache == null ? got : Said.DONE; // the key may be lost between that get and the call
            isReading = kind.isRead();
            end = null;
            Said said = ask(options, connection, kind, words);
            isReading = false;
            long end = this.end == null ? stamps.getAndIncrement() : this.end;
            made++;
            called.merge(kind, 1L, Long::sum);
            sayings.merge(said.word, 1L, Long::sum);
            boolean isWrite = kind.writes() && words.length > 0;
            KeyLock lock = locks != null && isWrite ? locks[(int) words[0]] : null;
            if (lock != null)
                lock.isDoubtful |= said.word == Word.UNKNOWN;
            Said known = isWrite ? known(kind, words, said, lock != null && lock.isDoubtful ? Said.DONE : got) : said;
            if (options.isVoid("told") && isVoid && (known.word == Word.DONE || known.word == Word.FOUND))
                throw new Stop(WORDS, kind.name + " said " + known.word.name().toLowerCase() + ", and --void told wants the value before");
            if (kind == Kind.PUT || kind == Kind.REPLACE && said.word == Word.DONE)
                seen.put(words[0], words[words.length - 1]);
            else if (said.word == Word.TOLD && (kind == Kind.GET || kind == Kind.DEL || kind == Kind.REPLACE || kind == Kind.PUT_IF_ABSENT))
                seen.put(words[0], said.value);
            Noted noted = recorded(options, kind, words, known, this::fresh);
            if (stream != null)
                handOver(begin, end, kind, said, noted);
            else if (noted != null)
                log.addAll(Event.of(begin, end, number, life, kind.name, said.word, noted));
            life += stream == null && noted != null && noted.answer == null ? 1 : 0;
            return said;
        }

        /** Returns what is known of the answer. If a put or del was done and does not report what it found, the get before it under the key's
         * lock says so, or what the only writer of the key remembers. */
        private Said known(Kind kind, long[] words, Said said, Said got) {
            Said before = memory.get(words[0]);
            boolean isPut = kind == Kind.PUT || kind == Kind.PUT_IF_ABSENT && said.word == Word.NONE || kind == Kind.REPLACE
                && (said.word == Word.DONE || said.word == Word.TOLD && said.value == words[1]);
            if (before != null && said.word != Word.REFUSED) {
                if (said.word == Word.UNKNOWN || kind == Kind.REPLACE && said.word == Word.FOUND)
                    memory.remove(words[0]);
                else if (kind == Kind.DEL || isPut)
                    memory.put(words[0], isPut ? Said.told(words[words.length - 1]) : Said.NONE);
            }
            if (kind != Kind.PUT && kind != Kind.DEL || said.word != Word.DONE)
                return said;
            return before != null ? before : got.tells() ? got : said;
        }

        /** Puts the events of a call that is over into the stream. A call that reports nothing is left out, or gets the answer `refused` if the
         * stream has its invocation already. A call whose answer is unknown stays open, and its thread continues as another process. */
        private void handOver(long begin, long end, Kind kind, Said said, Noted noted) {
            boolean isHeld = kind.isHeld(options.cache != null), isLeftOut = noted != null && noted.beside.size() > BESIDE;
            if (noted == null || isLeftOut) {
                if (isHeld)
                    stream.put(begin, new Happening(List.of(), null, null, false));
                List<Part> refused = isHeld ? List.of() : List.of(new Part(process, null, "\"refused\"", null));
                stream.put(end, new Happening(refused, kind.name, said.word, isLeftOut));
                return;
            }
            while (helpers.size() < noted.beside.size())
                helpers.add(stream.processes.getAndIncrement());
            List<Part> calls = new ArrayList<>(List.of(new Part(process, noted.call, null, noted.note)));
            List<Part> answers = new ArrayList<>(List.of(new Part(process, null, noted.answer, null)));
            for (int i = 0; i < noted.beside.size(); i++) {
                Noted one = noted.beside.get(i);
                calls.add(new Part(helpers.get(i), one.call, null, one.note));
                answers.add(new Part(helpers.get(i), null, one.answer, null));
            }
            if (isHeld)
                stream.put(begin, new Happening(calls, kind.name, null, false));
            stream.put(end, new Happening(answers, kind.name, said.word, false));
            if (noted.answer == null)
                process = stream.processes.getAndIncrement();
        }
    }

    /** A part of what a stamp of a stream has: a call of a process with its note, or its answer, or null if the call stays open. */
    private record Part(int process, Call call, String answer, String note) { }

    /** What a stamp of a stream has: first the event of a thread, then the events on its behalf; their function; and what the map said, if this ends
     * a call. */
    private record Happening(List<Part> parts, String kind, Word said, boolean isLeftOut) { }

    /** A call that is open, and when it began. */
    private record Opened(Call call, long stored) { }

    /**
     * A stream of events, which a thread of its own writes to the program while others record. Stamps are numbers without a gap, and each has its
     * slot. A thread that is too far ahead of what is written waits, so that memory does not grow. Between its two stamps a thread waits only for
     * lower stamps, so the event of the least stamp always comes.
     */
    private static final class Stream implements Runnable, AutoCloseable {
        final AtomicReferenceArray<Happening> slots = new AtomicReferenceArray<>(AHEAD);
        final AtomicInteger processes, state = new AtomicInteger(RUNNING);
        final AtomicLong stamps, taken;
        private final Run run;
        private final Map<Integer, Opened> open = new HashMap<>();
        final Map<Long, String> notes = new HashMap<>();
        private long number;
        private final Map<Long, Integer> writers = new HashMap<>();
        private final StringBuilder text = new StringBuilder();
        private final Thread writer = new Thread(this), reader = new Thread(this::read);
        private final Timer timer = new Timer(true);
        private volatile boolean isEnded;
        private Process process;
        private volatile byte[] report = {};
        int status = YES;
        String answer = "";
        ByteArrayOutputStream kept = new ByteArrayOutputStream(); // the stream so far, while it is no longer than is kept
        Throwable wrong;

        Stream(Run run, AtomicLong stamps, Map<Long, Long> start) {
            this.run = run;
            this.stamps = stamps;
            taken = new AtomicLong(stamps.get());
            processes = new AtomicInteger((int) run.options.threads);
            text.append("{\"start\":[").append(start.entrySet().stream().map(pair -> pairText(pair.getKey(), pair.getValue()))
                .collect(Collectors.joining(","))).append("],\"version\":3}\n");
            timer.schedule(new TimerTask() {
                @Override public void run() { endCalls(); }
            }, run.options.seconds * 1000);
            writer.setDaemon(true);
            reader.setDaemon(true);
            writer.start();
        }

        void endCalls() { state.compareAndSet(RUNNING, OVER); }

        void put(long stamp, Happening what) {
            for (int times = 1; stamp >= taken.get() + AHEAD && state.get() != FAILED; times++)
                rest(times);
            slots.set((int) (stamp % AHEAD), what);
        }

        /** Lets other threads run: most times once, sometimes for some time. */
        private static void rest(int times) {
            if (times % 64 != 0)
                Thread.yield();
            else
                LockSupport.parkNanos(100000);
        }

        /** Writes each event in its turn, and asks for the verdict at the end. */
        @Override public void run() {
            try {
                if (run.program == null) {
                    handAll(System.out);
                    return;
                }
                process = new ProcessBuilder(run.program.at("follow"), "follow", "--budget", "" + run.program.budget)
                    .redirectError(ProcessBuilder.Redirect.INHERIT).start();
                reader.start();
                try (OutputStream out = process.getOutputStream()) {
                    handAll(out);
                } catch (IOException ended) {
                    state.set(FAILED); // whoever follows has ended: the verdict says why
                }
                reader.join();
                Program.Answer told = run.program.checked("follow", process.waitFor(), new String(report, StandardCharsets.UTF_8));
                status = told.status;
                answer = told.text;
            } catch (IOException | InterruptedException error) {
                wrong = new Stop(FILE, (run.program == null ? "standard output" : run.program.path) + ": " + error.getMessage());
            } catch (RuntimeException | Error error) {
                wrong = error;
            } finally {
                if (!isEnded)
                    state.set(FAILED);
            }
        }

        /** The program prints its verdict when it has one, which may be while the stream is still running. Then the run is over. */
        private void read() {
            try {
                report = process.getInputStream().readAllBytes();
            } catch (IOException ended) {
                // Then it has no verdict.
            }
            endCalls();
        }

        private void handAll(OutputStream out) throws IOException {
            for (int times = 0;;) {
                boolean ended = isEnded;
                long next = taken.get();
                Happening what = slots.getAndSet((int) (next % AHEAD), null);
                times = what == null ? times + 1 : 0;
                if (what != null) {
                    taken.set(next + 1);
                    take(what);
                }
                if (what == null && ended && next != stamps.get())
                    throw new IOException("an event is missing");
                if (text.length() >= BATCH || what == null)
                    flush(out);
                if (what == null && ended)
                    return;
                if (what == null)
                    rest(times);
            }
        }

        private void flush(OutputStream out) throws IOException {
            byte[] lines = text.toString().getBytes(StandardCharsets.UTF_8);
            kept = run.program == null || kept == null || kept.size() + lines.length > KEPT ? null : kept;
            if (kept != null)
                kept.writeBytes(lines);
            out.write(lines);
            out.flush();
            if (out == System.out && System.out.checkError())
                throw new IOException("not written");
            text.setLength(0);
            run.progress();
        }

        /** The lines of events, and the counts, as for a round. But nothing is stored of calls that are over. A call without an answer is over too:
         * nobody waits for it. */
        private void take(Happening what) {
            for (Part part : what.parts) {
                if (part.call == null && part.answer == null)
                    continue;
                if (part.call != null && part.note != null)
                    notes.put(number, part.note);
                number++;
                run.helped += part.call != null && part != what.parts.get(0) ? 1 : 0;
                text.append(eventText(part.call, part.answer, part.note, part.process)).append('\n');
            }
            if (notes.size() > 2 * NOTES)
                notes.keySet().removeIf(old -> old + NOTES < number);
            if (!what.parts.isEmpty())
                count(what, what.parts.get(0));
            run.leftOut += what.isLeftOut ? 1 : 0;
            if (what.said != null)
                run.sayings.merge(what.said, 1L, Long::sum);
        }

        /** Counts the event of a thread. */
        private void count(Happening what, Part part) {
            if (part.call != null) {
                run.calls++;
                run.overlap += open.size();
                if (writesKey(what.kind) && writers.merge(part.call.words[0], 1, Integer::sum) > 1)
                    run.met.add(part.call.words[0]);
                open.put(part.process, new Opened(part.call, run.tally.begin(what.kind, part.call.words[0])));
                return;
            }
            Opened opened = open.remove(part.process);
            long key = opened.call.words[0];
            run.tally.end(what.kind, key, what.said, opened.stored);
            if (writesKey(what.kind) && part.answer != null)
                writers.computeIfPresent(key, (of, count) -> count > 1 ? count - 1 : null);
        }

        /** Ends the stream. Returns the status and the report, or what went wrong. */
        @Override public void close() {
            timer.cancel();
            isEnded = true;
            try {
                writer.join();
            } catch (InterruptedException error) {
                wrong = new Stop(FILE, run.options.name + ": interrupted");
            }
        }
    }

    /** The threads of a run, and a connection of the driver's own. */
    private static final class Crew implements AutoCloseable {
        final Options options;
        final AtomicLong stamps = new AtomicLong();
        final List<Worker> workers = new ArrayList<>();
        final List<ExecutorService> threads = new ArrayList<>();
        Index map, connection;
        Map<Long, Long> contents;
        long from = 1, puts; // from where on values are of puts; how many puts are the driver's own

        Crew(Options options) {
            this.options = options;
            KeyLock[] locks = options.isVoid("lock") ? new KeyLock[(int) options.keys] : null;
            for (int key = 0; locks != null && key < locks.length; key++)
                locks[key] = new KeyLock();
            for (int number = 0; number < options.threads; number++) {
                workers.add(new Worker(number, options, stamps, locks));
                threads.add(Executors.newSingleThreadExecutor(body -> {
                    Thread thread = new Thread(body);
                    thread.setDaemon(true);
                    return thread;
                }));
            }
        }

        /** Each thread opens a connection to a map. */
        void open(Index map) {
            this.map = map;
            each(worker -> { worker.open(map); return List.of(); });
            connection = map.connection();
        }

        /** Closes all connections. */
        private void closeConnections() {
            List<Future<?>> closing = new ArrayList<>();
            for (Worker worker : workers)
                if (worker.closes)
                    closing.add(threads.get(worker.number).submit(worker.connection::close));
            if (connection != null && connection != map)
                connection.close();
            for (Future<?> future : closing)
                try {
                    future.get();
                } catch (ExecutionException | InterruptedException wrong) {
                    // The run continues without it.
                }
            workers.forEach(worker -> worker.closes = false);
            connection = null;
        }

        /** Closes the map after its last use. */
        void end() {
            closeConnections();
            if (map != null)
                map.close();
            map = null;
        }

        /** Closes the map, at rest, and opens it again. */
        private void reopen() {
            closeConnections();
            Index opened, closed = map;
            map = null;
            try {
                opened = closed.reopen();
            } catch (Exception wrong) {
                throw new Stop(WORDS, options.name + ": reopen: " + wrong);
            }
            if (opened == null)
                throw new Stop(WORDS, options.name + ": reopen returned nothing; it has to return the map");
            open(opened);
        }

        private interface Part { List<Event> of(Worker worker) throws Exception; }

        /** Lets each thread do its part. If one goes wrong, the run ends. */
        private List<Event> each(Part part) {
            List<Future<List<Event>>> futures = new ArrayList<>();
            for (Worker worker : workers)
                futures.add(threads.get(worker.number).submit(() -> part.of(worker)));
            List<Event> events = new ArrayList<>();
            Throwable wrong = null;
            for (Future<List<Event>> future : futures)
                try {
                    events.addAll(future.get());
                } catch (ExecutionException | InterruptedException error) {
                    wrong = error.getCause() == null ? error : error.getCause();
                }
            if (wrong instanceof Stop || wrong instanceof OutOfMemoryError)
                sneak(wrong);
            if (wrong != null)
                wrong.printStackTrace();
            if (wrong != null)
                throw new Stop(WORDS, options.name + ": " + wrong);
            return events;
        }

        private void sneak(Throwable wrong) {
            if (wrong instanceof Stop stop)
                throw new Stop(stop.status, options.name + ": " + stop.getMessage());
            throw (Error) wrong;
        }

        /** A round: its events, with gets of all keys after those of the threads. Then `contents` is what these gets report. */
        List<Event> round(Task task) {
            AtomicInteger missing = new AtomicInteger(workers.size());
            List<Event> events = each(worker -> {
                missing.getAndDecrement();
                for (int times = 0; missing.get() > 0; times++)
                    if (times % 1024 == 1023)
                        Thread.yield();
                    else
                        Thread.onSpinWait();
                return worker.run(task);
            });
            if (options.isReopened)
                reopen();
            events.addAll(rest(task.round));
            return events;
        }

        /** Gets of all keys, the last calls of a round, and what the map then holds. If a get does not report the value, the key is written. */
        List<Event> rest(long round) {
            List<Event> events = new ArrayList<>();
            contents = new TreeMap<>();
            for (long key = 0; key < options.keys; key++) {
                Kind kind = Kind.GET;
                long value = 0;
                Said said = askAtRest(events, kind, key);
                boolean isKnown = said.word == Word.TOLD || said.word == Word.NONE && !"late".equals(options.cache);
                if (isKnown) {
                    value = said.value;
                } else if (said.word != Word.REFUSED && said.word != Word.UNKNOWN) {
                    kind = writer(key, round);
                    value = kind == Kind.PUT ? from + ++puts * (options.threads + 1) + options.threads : 0;
                    said = kind == Kind.PUT ? askAtRest(events, kind, key, value) : askAtRest(events, kind, key);
                    isKnown = kind != Kind.GET && said.word != Word.REFUSED && said.word != Word.UNKNOWN;
                }
                if (!isKnown)
                    throw new Stop(WORDS, options.name + ": " + kind.name + " of " + key + " said " + said.word.name().toLowerCase()
                        + " at rest: the run has to know what the key holds");
                if (kind == Kind.PUT || kind == Kind.GET && said.word == Word.TOLD)
                    contents.put(key, value);
            }
            return events;
        }

        /** The function after which it is known what a key holds: a put of a new value or, at each second key, a del. For a cache it is a del. */
        private Kind writer(long key, long round) {
            return options.hasDel && (options.cache != null || (key + round) % 2 == 1) ? Kind.DEL : Kind.PUT;
        }

        /** Asks a function at rest: again if it is refused, and a get also if nobody knows. The answer is noted unless it reports nothing. */
        private Said askAtRest(List<Event> events, Kind kind, long... words) {
            Said said = Said.REFUSED;
            long begin = 0, end = 0;
            for (int i = 0; i < 1000 && (said.word == Word.REFUSED || said.word == Word.UNKNOWN && kind == Kind.GET); i++) {
                begin = stamps.getAndIncrement();
                said = ask(options, connection, kind, words);
                end = stamps.getAndIncrement();
            }
            Noted noted = recorded(options, kind, words, said, null);
            if (noted != null && noted.answer != null)
                events.addAll(Event.of(begin, end, (int) options.threads, 0, kind == Kind.GET ? "rest" : kind.name, said.word, noted));
            return said;
        }

        @Override public void close() {
            try {
                end();
            } finally {
                threads.forEach(ExecutorService::shutdown);
            }
        }
    }

    // Histories

    /** What one round recorded, as a history, and what its threads met. */
    private static final class Round {
        final Map<Long, Long> start;
        final List<Call> pending;
        final List<Event> events = new ArrayList<>();
        final Set<Long> met = new HashSet<>();
        private final Map<List<Integer>, Integer> numbers = new HashMap<>();
        private int before;
        String atStart = "at the start", nobody = "nobody";
        long calls, overlap, leftOut;

        /** A history of what a follower still had, as far as the report needs it. */
        Round(String history) {
            Map<?, ?> whole = (Map<?, ?>) Json.of(history);
            start = new TreeMap<>();
            pending = List.of();
            atStart = "before these calls";
            nobody = "none of these calls";
            for (Object pair : whole.get("start") instanceof List<?> pairs ? pairs : List.of())
                start.put((Long) ((List<?>) pair).get(0), (Long) ((List<?>) pair).get(1));
            for (Object each : (List<?>) whole.get("events")) {
                Map<?, ?> event = (Map<?, ?>) each;
                List<?> call = (List<?>) event.get("invoke");
                Call read = call == null ? null : new Call((String) call.get(0), call.stream().skip(1).mapToLong(word -> (Long) word).toArray());
                events.add(new Event(((Long) event.get("process")).intValue(), read, null, null));
            }
        }

        /** These calls, which the report lists under "invoked", by rising event, with the notes that the stream had of them. */
        void note(List<Long> invoked, Map<Long, String> notes) {
            List<Integer> calls = new ArrayList<>();
            for (int i = 0; i < events.size(); i++)
                if (events.get(i).call != null)
                    calls.add(i);
            for (int i = 0; i < invoked.size() && calls.size() == invoked.size(); i++)
                events.set(calls.get(i), new Event(events.get(calls.get(i)).thread, events.get(calls.get(i)).call, null, notes.get(invoked.get(i))));
        }

        /** Each thread, and each of its lives, becomes a process. Further calls on behalf of a call get a process of their own. Calls from earlier
         * rounds that have no answer are the first processes. */
        Round(List<Event> noted, Map<Long, Long> start, List<Call> before, Tally tally) {
            this.start = start;
            this.before = before.size();
            for (Call call : before)
                events.add(new Event(events.size(), call, null, null));
            noted.sort(Comparator.comparingLong(Event::stamp));
            order(noted);
            pending = measure(tally);
        }

        private int number(List<Integer> who) {
            return numbers.computeIfAbsent(who, is -> before + numbers.size());
        }

        /** The events of the threads. The further calls of a call get processes that are free. If there are none, or too many calls, the call is left
         * out with its further calls. */
        private void order(List<Event> noted) {
            Set<List<Integer>> own = new HashSet<>(), left = new HashSet<>();
            noted.forEach(event -> own.add(event.who()));
            int room = PROCESSES - before - own.size(), madeUp = 0;
            long most = CALLS - before - noted.stream().filter(event -> event.call != null).count();
            List<List<Integer>> free = new ArrayList<>();
            Map<List<Integer>, List<List<Integer>>> helping = new HashMap<>();
            for (Event event : noted) {
                List<Integer> who = event.who();
                if (event.call == null && left.remove(who))
                    continue;
                if (event.call != null) {
                    for (; free.size() < event.beside.size() && madeUp < room; madeUp++)
                        free.add(List.of(-1, madeUp));
                    if (event.beside.size() > Math.min(free.size(), most)) {
                        left.add(who);
                        leftOut++;
                        continue;
                    }
                    most -= event.beside.size();
                    List<List<Integer>> rest = free.subList(free.size() - event.beside.size(), free.size());
                    helping.put(who, List.copyOf(rest));
                    rest.clear();
                }
                events.add(new Event(event.stamp, number(who), 0, event.call, event.answer, event.note, event.kind, event.said, List.of()));
                List<List<Integer>> helpers = helping.get(who);
                for (int i = 0; i < helpers.size(); i++) {
                    Noted one = event.beside.get(i);
                    events.add(event.call == null ? new Event(number(helpers.get(i)), null, one.answer, null)
                        : new Event(number(helpers.get(i)), one.call, null, one.note));
                }
                if (event.call == null)
                    free.addAll(helping.remove(who));
            }
        }

        /** How many calls were open when another began, at which keys two writers met, and which changes may still come. A call without an answer
         * does not count as overlapped. */
        private List<Call> measure(Tally tally) {
            Set<Event> answered = java.util.Collections.newSetFromMap(new java.util.IdentityHashMap<>());
            Map<Integer, Event> open = new LinkedHashMap<>();
            for (Event event : events)
                if (event.call != null)
                    open.put(event.thread, event);
                else
                    answered.add(open.remove(event.thread));
            open.clear();
            Map<Integer, Long> stored = new HashMap<>();
            for (Event event : events) {
                if (event.call == null) {
                    Event begun = open.remove(event.thread);
                    if (event.kind != null)
                        tally.end(event.kind, begun.call.words[0], event.said, stored.get(event.thread));
                    continue;
                }
                if (event.kind != null) {
                    calls++;
                    overlap += open.values().stream().filter(other -> other.kind != null && answered.contains(other)).count();
                    stored.put(event.thread, tally.begin(event.kind, event.call.words[0]));
                }
                if (writesKey(event.kind)
                    && open.values().stream().anyMatch(other -> writesKey(other.kind) && other.call.words[0] == event.call.words[0]))
                    met.add(event.call.words[0]);
                open.put(event.thread, event);
            }
            return open.values().stream().map(Event::call).filter(call -> events.stream().noneMatch(event -> call.isToldBy(event.answer))).toList();
        }

        /** The pairs of an answer, or none if it is not a list of pairs. */
        private static List<long[]> pairs(String answer) {
            List<long[]> pairs = new ArrayList<>();
            if (answer != null && answer.startsWith("[["))
                for (String pair : answer.substring(2, answer.length() - 2).split("\\],\\["))
                    pairs.add(Arrays.stream(pair.split(",")).mapToLong(Long::parseUnsignedLong).toArray());
            return pairs;
        }

        /** Whether all its keys are below `keys` and all its calls have answers. Then it may be judged together with other rounds. */
        boolean isApart(long keys) {
            long count = 0;
            for (Event event : events) {
                count += event.call != null ? 1 : 0;
                if (event.call != null && Long.compareUnsigned(event.call.words[0], keys) >= 0)
                    return false;
                if (pairs(event.answer).stream().anyMatch(pair -> Long.compareUnsigned(pair[0], keys) >= 0))
                    return false;
            }
            return 2 * count == events.size() && start.keySet().stream().allMatch(key -> key < keys);
        }

        /** Rounds as one history, in which the keys of each are moved up. It has an order if and only if each round has one, since linearizability is
         * local: a call says nothing of keys that it does not touch (Herlihy and Wing, 1990). */
        static String together(List<Round> rounds, long keys) {
            List<String> texts = new ArrayList<>(), start = new ArrayList<>();
            for (int i = 0; i < rounds.size(); i++) {
                long by = i * keys;
                rounds.get(i).start.forEach((key, value) -> start.add(pairText(key + by, value)));
                for (Event event : rounds.get(i).events)
                    texts.add(eventText(event.call == null ? null : event.call.moved(by, keys), moved(event.answer, by), null, event.thread));
            }
            return "{\"events\":[" + String.join(",", texts) + "],\"start\":[" + String.join(",", start) + "],\"version\":3}\n";
        }

        private static String moved(String answer, long by) {
            return answer == null || !answer.startsWith("[") ? answer
                : pairs(answer).stream().map(pair -> pairText(pair[0] + by, pair[1])).collect(Collectors.joining(",", "[", "]"));
        }

        String text() {
            boolean tellsLess = events.stream().anyMatch(event -> LESS.contains("" + event.answer) || event.note != null);
            boolean replaces = events.stream().anyMatch(event -> event.call != null && event.call.name.equals("replace"));
            int version = tellsLess ? 3 : replaces || !start.isEmpty() ? 2 : 1;
            String pairs = start.entrySet().stream().map(pair -> pairText(pair.getKey(), pair.getValue())).collect(Collectors.joining(","));
            return events.stream().map(event -> eventText(event.call, event.answer, event.note, event.thread))
                .collect(Collectors.joining(",", "{\"events\":[", "]"))
                + (version > 1 ? ",\"start\":[" + pairs + "]" : "") + ",\"version\":" + version + "}\n";
        }
    }

    private static String eventText(Call call, String answer, String note, int process) {
        return (call == null ? "{\"answer\":" + answer : "{\"invoke\":" + call.text()) + (note != null ? ",\"note\":\"" + note + "\"" : "")
            + ",\"process\":" + process + "}";
    }

    /** How often gets found a value, and how often a key was lost. A key is lost if nothing is found although a put of it was answered, and no delete
     * has begun since. */
    private static final class Tally {
        long hits, misses, losses, clock;
        /** When a put ended, how many deletes are open, and when a delete began or ended last. */
        private final Map<Long, Long> stored = new HashMap<>(), deletes = new HashMap<>(), deleted = new HashMap<>();

        private static boolean deletes(String kind) { return kind.equals("del") || kind.equals("pop_first"); }

        /** Begins with a new map. */
        void forget() {
            stored.clear();
            deletes.clear();
            deleted.clear();
        }

        /** When the call begins. */
        long begin(String kind, long key) {
            clock++;
            if (deletes(kind)) {
                stored.remove(key);
                deletes.merge(key, 1L, Long::sum);
                deleted.put(key, clock);
            }
            return clock;
        }

        void end(String kind, long key, Word said, long begun) {
            clock++;
            boolean isGet = kind.equals("get"), isNone = said == Word.NONE;
            hits += isGet && (said == Word.TOLD || said == Word.FOUND) ? 1 : 0;
            misses += isGet && isNone ? 1 : 0;
            boolean looks = List.of("get", "put", "replace", "put_if_absent", "rest").contains(kind);
            if (isNone && looks && stored.getOrDefault(key, begun) < begun) {
                losses++;
                stored.remove(key);
            }
            boolean isDone = kind.equals("put") && said != Word.REFUSED && said != Word.UNKNOWN || kind.equals("put_if_absent") && isNone
                || kind.equals("replace") && said == Word.DONE;
            if (deletes(kind)) {
                deletes.merge(key, said == Word.UNKNOWN ? 0L : -1L, Long::sum);
                deleted.put(key, clock);
            } else if (isDone && deletes.getOrDefault(key, 0L) == 0 && deleted.getOrDefault(key, 0L) < begun) {
                stored.put(key, clock);
            }
        }
    }

    /** The program {@code bench}. */
    private record Program(String path, long budget, Set<Boolean> answered) {
        static Program of(Options options) {
            String path = options.bench != null ? options.bench : System.getenv("POTZENDAI_BENCH");
            path = path != null ? path : Files.isExecutable(Path.of("bench")) ? "./bench" : "bench";
            Program program = new Program(path, options.budget, ConcurrentHashMap.newKeySet());
            program.ask(options.isStream ? "follow" : "judge", options.isStream ? "" : "{\"events\":[],\"version\":1}\n", options.budget);
            return program;
        }

        /** Returns the program that runs a command. After the repository's own `bench` has answered, this is the program that `bench` built last. For
         * `bench` itself takes as long as ten rounds to see that nothing has changed. */
        String at(String command) {
            if (!answered.contains(command.equals("judge")) || !path.endsWith("/bench")) return path;
            return List.of("bench_judge", "bench_histories", "bench").stream().skip(command.equals("judge") ? 0 : 1)
                .map(name -> Path.of(path).resolveSibling("crates/" + name + "/out/" + name).toFile())
                .filter(file -> file.canExecute() && new File(file.getParent(), "built").isFile())
                .max(Comparator.comparingLong(file -> new File(file.getParent(), "built").lastModified())).map(File::toString).orElse(path);
        }

        record Answer(int status, String text) { }

        /** If the verdict is undecided, it is asked again at ten times the budget. */
        Answer askTwice(String command, String text) {
            Answer answer = ask(command, text, budget);
            return answer.status == UNDECIDED ? ask(command, text, more()) : answer;
        }

        /** The budget of a question that is asked again. */
        long more() { return Math.min(10 * budget, 1000000); }

        Answer ask(String command, String text, long budget) {
            try {
                Process process = new ProcessBuilder(at(command), command, "--budget", "" + budget)
                    .redirectError(ProcessBuilder.Redirect.INHERIT).start();
                try (var in = process.getOutputStream()) {
                    in.write(text.getBytes(StandardCharsets.UTF_8));
                } catch (IOException broken) {
                    // The program has ended before it read everything; its status says why.
                }
                String answer = new String(process.getInputStream().readAllBytes(), StandardCharsets.UTF_8);
                return checked(command, process.waitFor(), answer);
            } catch (IOException | InterruptedException error) {
                throw new Stop(FILE, path + ": " + error.getMessage());
            }
        }

        /** The status with its report, if the program has given one. */
        Answer checked(String command, int status, String answer) {
            if (status > UNDECIDED)
                throw new Stop(status <= FILE ? status : FILE, path + " " + command + ": status " + status);
            String report = answer.lines().findFirst().orElse("");
            if (!List.of("draw", "page").contains(command) && !report.endsWith("\"verdict\":\"" + VERDICTS.get(status) + "\"}"))
                throw new Stop(FILE, path + " " + command + ": status " + status + " without its verdict");
            answered.add(command.equals("judge"));
            return new Answer(status, answer);
        }
    }

    // A run

    /** Rounds at a new map. Each begins with what the one before has left: the pairs, and calls without an answer that may still take effect. */
    private static final class Run {
        final Options options;
        final Supplier<? extends Index> make;
        final Program program;
        final EnumMap<Word, Long> sayings = new EnumMap<>(Word.class);
        final EnumMap<Kind, Long> called = new EnumMap<>(Kind.class);
        final Set<Long> met = new HashSet<>();
        final long began = System.nanoTime();
        final List<String> cut = new ArrayList<>();
        final Tally tally = new Tally();
        private final List<Waiting> waiting = new ArrayList<>();
        private long waitingCalls, waitsSince;
        Map<Long, String> notes = Map.of();
        long rounds, calls, overlap, undecided, helped, leftOut, wrongTimes; // calls on behalf of others; calls left out; how often a map went wrong
        Round failed;
        String report;
        ByteArrayOutputStream kept; // of a stream

        Run(Options options, Supplier<? extends Index> make, Program program) {
            this.options = options;
            this.make = make;
            this.program = program;
        }

        /** Rounds from this number on, until one has no order, or the time is over; or one stream. */
        Run go(long number) {
            yields = options.yields;
            hasPoints = false;
            try (Crew crew = new Crew(options)) {
                open(crew);
                if (options.isStream)
                    follow(crew);
                else
                    goRounds(crew, number);
                if (options.isStream)
                    count(crew);
                wrongTimes = crew.workers.stream().mapToLong(Worker::wrongTimes).sum();
            }
            return this;
        }

        /** How often the threads called each function, and in rounds what the map said. */
        private void count(Crew crew) {
            called.clear();
            for (Worker worker : crew.workers)
                worker.called.forEach((kind, count) -> called.merge(kind, count, Long::sum));
            if (options.isStream)
                return;
            sayings.clear();
            for (Worker worker : crew.workers)
                worker.sayings.forEach((word, count) -> sayings.merge(word, count, Long::sum));
        }

        /** Begins with a new map. */
        private void open(Crew crew) {
            crew.open(make.get());
            crew.rest(0);
            for (long value : crew.contents.values())
                crew.from = Long.compareUnsigned(value, crew.from) < 0 ? crew.from : value + 1;
            tally.forget();
        }

        private void goRounds(Crew crew, long number) {
            List<Call> pending = List.of();
            while (!isOver() && failed == null) {
                if (rounds > 0 && options.fresh > 0 && rounds % options.fresh == 0) {
                    crew.end();
                    open(crew);
                    pending = List.of();
                }
                int lives = (PROCESSES - 1 - pending.size()) / (int) options.threads;
                if (lives == 0) {
                    cut.add(options.name + ": calls without an answer leave no room for others: " + pending.size());
                    break;
                }
                Map<Long, Long> start = crew.contents;
                Set<Long> doubtful = pending.stream().map(call -> call.words[0]).collect(Collectors.toSet());
                Round round = new Round(crew.round(new Task(number + rounds, lives, start, doubtful, crew.from)), start, pending, tally);
                count(crew);
                take(round);
                pending = round.pending;
            }
            judgeWaiting();
        }

        /** One stream, until it has no order, or the time is over. */
        private void follow(Crew crew) {
            Stream stream = new Stream(this, crew.stamps, crew.contents);
            try (stream) {
                crew.each(worker -> {
                    worker.stream = stream;
                    try {
                        return worker.run(new Task(0, STREAM_PROCESSES, crew.contents, Set.of(), crew.from));
                    } catch (RuntimeException | Error error) {
                        stream.state.set(FAILED);
                        throw error;
                    }
                });
            }
            if (stream.wrong instanceof Error error)
                throw error;
            if (stream.wrong != null)
                throw (RuntimeException) stream.wrong;
            conclude(stream);
        }

        /** What the verdict on a stream says. A stream that was cut off gets no yes. */
        private void conclude(Stream stream) {
            boolean isCut = stream.state.get() == FAILED || program != null && !stream.answer.startsWith("{\"calls\":" + (calls + helped) + ",");
            if (stream.status == YES && isCut)
                throw new Stop(FILE, options.name + ": the stream was cut off");
            undecided += stream.status == UNDECIDED ? 1 : 0;
            failed = stream.status == NO ? new Round("{\"events\":[]}") : null;
            report = stream.answer;
            kept = stream.kept;
            notes = stream.notes;
            if (stream.processes.get() >= STREAM_PROCESSES)
                cut.add(options.name + ": calls without an answer leave no room for others");
        }

        private void take(Round round) {
            rounds++;
            calls += round.calls;
            overlap += round.overlap;
            leftOut += round.leftOut;
            met.addAll(round.met);
            if (program == null)
                System.out.print(round.text());
            if (program == null && System.out.checkError())
                throw new Stop(FILE, "standard output: a history was not written");
            if (program != null)
                judgeSoon(round);
        }

        /** What is counted, up to the end of a round that is not judged yet. */
        private record Waiting(Round round, long rounds, long calls, long overlap, long leftOut, EnumMap<Word, Long> sayings,
                EnumMap<Kind, Long> called, long hits, long misses, long losses) { }

        private void judgeSoon(Round round) {
            int count = round.events.size() / 2;
            boolean isApart = count <= BATCH_CALLS && round.isApart(options.keys);
            if (!waiting.isEmpty() && (!isApart || count + waitingCalls > CALLS))
                judgeWaiting();
            if (failed != null)
                return;
            waitsSince = waiting.isEmpty() ? System.nanoTime() : waitsSince;
            waitingCalls = waiting.isEmpty() ? count : waitingCalls + count;
            waiting.add(new Waiting(round, rounds, calls, overlap, leftOut, sayings.clone(), called.clone(), tally.hits, tally.misses, tally.losses));
            if (waiting.size() == BATCH_ROUNDS || System.nanoTime() - waitsSince > 1000000000L || rounds == 1 || !isApart)
                judgeWaiting();
        }

        /** Judges the rounds that wait: first all together, and each on its own if that is not a yes. After a no, only what was counted up to its end
         * counts. */
        private void judgeWaiting() {
            List<Waiting> all = List.copyOf(waiting);
            waiting.clear();
            String text = all.size() > 1 ? Round.together(all.stream().map(Waiting::round).toList(), options.keys) : null;
            if (text != null && program.ask("judge", text, program.budget).status == YES)
                return;
            for (Waiting one : all) {
                int status = program.askTwice("judge", one.round.text()).status;
                undecided += status == UNDECIDED ? 1 : 0;
                if (status != NO)
                    continue;
                failed = one.round;
                rounds = one.rounds;
                calls = one.calls;
                overlap = one.overlap;
                leftOut = one.leftOut;
                sayings.clear();
                sayings.putAll(one.sayings);
                called.clear();
                called.putAll(one.called);
                tally.hits = one.hits;
                tally.misses = one.misses;
                tally.losses = one.losses;
                return;
            }
        }

        double seconds() { return (System.nanoTime() - began) / 1e9; }

        /** A number with its noun. */
        private static String counted(long count, String noun) { return count + " " + noun + (count == 1 ? "" : noun.endsWith("s") ? "es" : "s"); }

        /** At least one round is made. */
        private boolean isOver() {
            progress();
            return rounds > 0 && (options.rounds > 0 && rounds >= options.rounds || seconds() >= options.seconds);
        }

        /** Each second a line on a terminal says how far the run is. */
        void progress() {
            if (options.shows && System.nanoTime() - options.shown > 1000000000L && calls > 0) {
                options.shown = System.nanoTime();
                long all = sayings.values().stream().mapToLong(Long::longValue).sum();
                System.err.printf("%s, %.0f a second, overlap %.1f a call, %.1f%% refused, two writers met on %d of %s%n",
                    counted(calls, "call"), calls / seconds(), (double) overlap / calls,
                    100.0 * sayings.getOrDefault(Word.REFUSED, 0L) / Math.max(all, 1), met.size(), counted(options.keys, "key"));
            }
        }

        /** The verdict, and the counts on which it is based. */
        String summary(String verdict) {
            String said = sayings.entrySet().stream().map(one -> one.getValue() + " " + one.getKey().name().toLowerCase())
                .collect(Collectors.joining(", "));
            List<String> parts = new ArrayList<>(List.of(String.format("%s: %s%s in %.1f seconds, overlap %.2f a call: %s%s", verdict,
                options.isStream ? "" : counted(rounds, "round") + ", ", counted(calls, "call"), seconds(),
                (double) overlap / Math.max(calls, 1), said, undecided > 0 ? "; " + undecided + " undecided" : "")));
            if (isLate()) // such a miss may be of a write that has not appeared yet, and is no loss
                parts.add(counted(tally.hits, "hit") + ", " + counted(gets() - tally.hits, "miss"));
            else if (options.cache != null)
                parts.add(counted(tally.hits, "hit") + ", " + counted(tally.misses, "miss") + ", " + counted(tally.losses, "loss"));
            if (!verdict.startsWith("no") || verdict.equals("not judged"))
                parts.addAll(cautions());
            return String.join("; ", parts);
        }

        private boolean isLate() { return "late".equals(options.cache); }

        private long gets() { return called.getOrDefault(Kind.GET, 0L); }

        /** Why a yes of this run says little. */
        private List<String> cautions() {
            List<String> said = new ArrayList<>();
            boolean isCache = options.cache != null;
            if (2 * sayings.getOrDefault(Word.REFUSED, 0L) > sayings.values().stream().mapToLong(Long::longValue).sum())
                said.add("most calls were refused: a yes says little");
            if (tally.hits == 0 && isCache)
                said.add("no get hit: a yes says nothing");
            else if (tally.hits == 0 && gets() > 0)
                said.add("no get found a value: a yes says little");
            else if (isCache && 20 * tally.hits < gets())
                said.add(counted(tally.hits, "hit") + String.format(java.util.Locale.ROOT, " in %,d gets: a yes says little", gets()));
            if (isCache && tally.losses == 0 && !isLate())
                said.add("no key was lost: eviction was not tested");
            if (leftOut > 0)
                said.add(counted(leftOut, "scan") + " without some of the keys left out");
            if (overlap < 0.05 * calls)
                said.add("overlap below 0.05: the threads hardly met, and a yes says little: call point() in the map, and run with --yield 200");
            if (options.yields > 0 && !hasPoints)
                said.add("--yield acted only between calls, since the map called no point()");
            return said;
        }

        /** The smallest run that failed, of some tries with half of the calls or keys, or a thread less. Threads interleave as they will. If calls
         * have no answer, nothing smaller is tried, since they may still take effect. */
        Run smaller() {
            Run best = this;
            long until = System.nanoTime() + 5000000000L;
            for (int how = 0, tries = sayings.containsKey(Word.UNKNOWN) ? 60 : 0; how < 3; how++) {
                Options less = best.options.less(how);
                for (int i = 0; less != null && i < 6 && tries++ < 60 && System.nanoTime() < until; i++) {
                    Run again = new Run(less, make, program).go(rounds - 1);
                    if (again.failed != null) {
                        best = again;
                        how = -1;
                        break;
                    }
                }
            }
            return best;
        }
    }

    // A no in words

    /** A JSON text: objects, arrays, texts, numbers as Long, and null. */
    private static final class Json {
        private final String text;
        private int at;
        private Json(String text) { this.text = text; }
        static Object of(String text) { return new Json(text).value(); }

        private Object value() {
            switch (text.charAt(at)) {
                case '{': {
                    Map<String, Object> members = new HashMap<>();
                    for (at++; text.charAt(at) != '}'; at += text.charAt(at) == ',' ? 1 : 0) {
                        String name = (String) value();
                        at++;
                        members.put(name, value());
                    }
                    at++;
                    return members;
                }
                case '[': {
                    List<Object> items = new ArrayList<>();
                    for (at++; text.charAt(at) != ']'; at += text.charAt(at) == ',' ? 1 : 0)
                        items.add(value());
                    at++;
                    return items;
                }
                case '"': {
                    int from = at + 1;
                    at = text.indexOf('"', from) + 1;
                    return text.substring(from, at - 1);
                }
                case 'n':
                    at += 4;
                    return null;
                case 't':
                    at += 4;
                    return true;
                case 'f':
                    at += 5;
                    return false;
                default: {
                    int from = at;
                    while (at < text.length() && Character.isDigit(text.charAt(at)))
                        at++;
                    return Long.parseUnsignedLong(text.substring(from, at));
                }
            }
        }
    }

    private static String saidPairs(List<?> pairs) {
        return pairs.isEmpty() ? "nothing" : pairs.stream().map(pair -> (List<?>) pair)
            .map(pair -> saidAnswer(pair.get(0)) + ": " + saidAnswer(pair.get(1))).collect(Collectors.joining(", "));
    }

    private static String saidAnswer(Object answer) {
        if (answer instanceof List<?> pairs)
            return saidPairs(pairs);
        if (answer instanceof Long value)
            return Long.toUnsignedString(value);
        return switch (String.valueOf(answer)) {
            case "null" -> "none";
            case "done" -> "that it was done";
            case "found" -> "that there was a value";
            case "other" -> "another value";
            case "refused" -> "that it was refused";
            default -> "nothing";
        };
    }

    /** What a call was answered, and who put that, or that its answer is left out of the report. */
    private static String saidAnswered(Round round, Object answer) {
        return "left out".equals(answer) ? ", whatever its answer" : ", answered " + saidAnswer(answer) + saidWriter(round, answer);
    }

    /** The first line of a report, with `..` in place of a long list of calls. */
    private static String saidVerdict(String line) {
        return line.replaceFirst("\"calls\":\\[[^\\]]{80,}\\]", "\"calls\":[..]");
    }

    private static String saidCall(List<?> call) {
        List<String> words = call.stream().skip(1).map(Potzendai::saidAnswer).toList();
        return switch ((String) call.get(0)) {
            case "insert" -> "put " + words.get(1) + " at " + words.get(0);
            case "replace" -> "replace " + words.get(1) + " at " + words.get(0) + " by " + words.get(2);
            case "scan" -> "scan from " + words.get(0) + " to " + words.get(1);
            default -> call.get(0) + " " + words.get(0);
        };
    }

    private static String saidCall(Call call) { return saidCall(call.list()); }

    /** The call of an event as it was made, if the history has another one; otherwise null. */
    private static String noteOf(Round round, long number) {
        return number < round.events.size() ? round.events.get((int) number).note : null;
    }

    /** A call as it was made. */
    private static String saidMade(Round round, long number, List<?> call) {
        String note = noteOf(round, number);
        return note != null ? note.split(":")[0].replace("answered none", "which found none") + "," : saidCall(call);
    }

    /** The event of a call's answer, or the end if it has none. */
    private static int lastEvent(Round round, int invoked) {
        for (int i = invoked + 1; i < round.events.size(); i++)
            if (round.events.get(i).thread == round.events.get(invoked).thread)
                return i;
        return round.events.size();
    }

    /** Whether two calls have a key in common. */
    private static boolean meets(Call call, Call other) {
        long high = call.words[call.name.equals("scan") ? 1 : 0], to = other.words[other.name.equals("scan") ? 1 : 0];
        return Long.compareUnsigned(call.words[0], to) <= 0 && Long.compareUnsigned(other.words[0], high) <= 0;
    }

    /** The other calls that were open on the keys of these. */
    private static List<String> saidOpen(Round round, List<Long> shown, List<Long> numbers) {
        List<String> said = new ArrayList<>();
        for (int i = 0; i < round.events.size(); i++) {
            Event one = round.events.get(i);
            int at = i;
            if (one.call != null && !shown.contains((long) i) && numbers.stream().filter(of -> of < round.events.size()).mapToInt(Long::intValue)
                    .anyMatch(of -> round.events.get(of).call != null && meets(one.call, round.events.get(of).call)
                        && at < lastEvent(round, of) && of < lastEvent(round, at)))
                said.add(saidMade(round, i, one.call.list()) + " of process " + one.thread + " (" + saidEvents(round, i, one.thread) + ")");
        }
        List<String> first = new ArrayList<>(said.subList(0, Math.min(said.size(), OPEN_SHOWN)));
        if (said.size() > OPEN_SHOWN)
            first.add("and " + (said.size() - OPEN_SHOWN) + " more");
        return said.isEmpty() ? List.of() : List.of("  also open on the same keys meanwhile: " + String.join(", ", first));
    }

    /** The events of a call: that of its invocation by a process, and that of its answer if it has one. */
    private static String saidEvents(Round round, long invoked, long process) {
        for (int i = (int) invoked + 1; i < round.events.size(); i++)
            if (round.events.get(i).thread == process)
                return "events " + invoked + " to " + i;
        return "event " + invoked + " on";
    }

    /** Who put a value. */
    private static String saidWriter(Round round, Object answer) {
        if (!(answer instanceof Long value))
            return "";
        for (int i = 0; i < round.events.size(); i++) {
            Call call = round.events.get(i).call;
            if (call != null && (call.name.equals("insert") || call.name.equals("replace")) && call.words[call.words.length - 1] == value)
                return "; " + saidAnswer(value) + " is what process " + round.events.get(i).thread + " put (event " + i + ")";
        }
        return "; " + saidAnswer(value) + (round.start.containsValue(value) ? " was there " + round.atStart : " is what " + round.nobody + " put");
    }

    /** Who put a value that the few calls read and none of them put. */
    private static String saidOrigin(Round round, Map<?, ?> line) {
        List<String> who = new ArrayList<>();
        if (Boolean.TRUE.equals(line.get("start")))
            who.add("what was there " + round.atStart);
        for (Object put : (List<?>) line.get("puts"))
            who.add("what process " + ((Map<?, ?>) put).get("process") + " put (event " + ((Map<?, ?>) put).get("event") + ")");
        return "  " + saidAnswer(line.get("value")) + " at " + saidAnswer(line.get("key")) + " is "
            + (who.isEmpty() ? "what " + round.nobody + " put" : String.join(", ", who));
    }

    /** The value of a key from which the few calls have no order. Only an undecided report has such lines. */
    private static String saidFrom(Map<?, ?> line) {
        String begin = "  from key " + saidAnswer(line.get("key")) + " holding ";
        if (line.get("from") == null)
            return begin + "nothing";
        return begin + saidAnswer(line.get("from")) + ", which " + (line.get("put") instanceof Map<?, ?> put
            ? "process " + put.get("process") + " put (event " + put.get("event") + ")" : "was there before these calls");
    }

    /** Which calls one misses. */
    private static String saidMissed(Round round, Map<?, ?> line) {
        StringBuilder said = new StringBuilder();
        for (Object missed : line.get("misses") instanceof List<?> all ? all : List.of()) {
            Map<?, ?> call = (Map<?, ?>) missed;
            said.append("; it misses ").append(saidMade(round, (Long) call.get("event"), (List<?>) call.get("call")))
                .append(" of process ").append(call.get("process")).append(" (event ").append(call.get("event")).append(")");
        }
        return said.toString();
    }

    /** A report of `explain` in words. After an undecided there is a line of `locate`, which is skipped. */
    private static List<String> saidReport(List<String> report, Round round) {
        List<String> said = new ArrayList<>(List.of(saidVerdict(report.get(0))));
        List<Map<?, ?>> lines = new ArrayList<>();
        for (String text : report.subList(1, report.size()))
            lines.add((Map<?, ?>) Json.of(text));
        lines.removeIf(line -> line.containsKey("verdict"));
        if (!lines.isEmpty())
            said.add("these calls have no order, and no other could mend that:");
        List<Long> shown = new ArrayList<>(), next = new ArrayList<>();
        for (Map<?, ?> line : lines) {
            if (line.containsKey("answer")) {
                Long event = (Long) line.get("event");
                String note = noteOf(round, event);
                shown.add(event);
                said.add(String.format("  %-19s process %-3d %s%s", saidEvents(round, event, (Long) line.get("process")), line.get("process"),
                    note != null ? note : saidCall((List<?>) line.get("call")) + saidAnswered(round, line.get("answer")), saidMissed(round, line)));
            }
            if (line.containsKey("from"))
                said.add(saidFrom(line));
            if (line.containsKey("puts"))
                said.add(saidOrigin(round, line));
            if (!line.containsKey("front"))
                continue;
            said.add((((List<?>) line.get("front")).isEmpty() ? "  no call of them can come first; the map holds "
                : "  an order of them gets as far as the events " + line.get("front").toString().replace(" ", "") + "; the map then holds ")
                + saidPairs((List<?>) line.get("holds")));
            for (Object each : (List<?>) line.get("next")) {
                Map<?, ?> call = (Map<?, ?>) each;
                next.add((Long) call.get("event"));
                said.add("  the call of event " + call.get("event") + " was answered " + saidAnswer(call.get("answer")) + ", and would be answered "
                    + saidAnswer(call.get("would")) + saidWriter(round, call.get("answer")));
            }
        }
        said.addAll(saidOpen(round, shown, next.isEmpty() ? shown.subList(Math.max(shown.size() - 1, 0), shown.size()) : next));
        return said;
    }

    /** A line of a report, without the values that some replaces of a cache put: those that said that they changed nothing. */
    private static String unmarked(String line) {
        return Pattern.compile("[0-9]{19,20}").matcher(line).replaceAll(found -> {
            long value = Long.parseUnsignedLong(found.group());
            return value < 0 && value != GREATEST ? "a value that no call puts" : found.group();
        });
    }

    /** Writes a file of a round, or of a stream, and says its name. */
    private static String keep(Run run, String ending, byte[] text) {
        long round = Math.max(run.rounds - 1, 0);
        Path path = Path.of(run.options.out, run.options.name + "-" + Long.toUnsignedString(run.options.seed) + "-" + round + ending);
        try {
            Files.write(path, text);
            return "  file: " + path;
        } catch (IOException error) {
            return "file: not written: " + path;
        }
    }

    private static String keep(Run run, String ending, String text) {
        return keep(run, ending, text.getBytes(StandardCharsets.UTF_8));
    }

    /** Saves the file that the program makes of a history, or says why there is none. */
    private static String keepMade(Run run, String command, String ending, String text) {
        try {
            return keep(run, ending, run.program.askTwice(command, text).text);
        } catch (Stop stop) {
            return "file: not made: " + ending + ": " + stop.getMessage();
        }
    }

    /** Reports a stream that has no order. If the calls that are left show the fault, their history is explained; otherwise a line says why not. The
     * stream so far is saved, unless it is long. The report is saved if it is not shown whole, or if nothing else is saved. */
    private static List<String> refutedStream(Run run) {
        List<String> lines = run.report.lines().toList(), said = new ArrayList<>();
        String report = lines.get(0), left = lines.size() > 1 ? lines.get(1) + "\n" : null;
        boolean isWhole = report.length() <= REPORT_SHOWN;
        said.add(isWhole ? report : report.substring(0, REPORT_SHOWN) + "..");
        if (left != null)
            said.addAll(shownLeft(run, left));
        else
            said.add("the few calls are not shown: " + whyNotFew(report));
        said.add(run.kept == null ? "the stream is not saved, since it is longer than " + KEPT + " bytes"
            : keep(run, ".jsonl", run.kept.toByteArray()));
        if (!isWhole || left == null && run.kept == null)
            said.add(keep(run, "-report.json", report + "\n"));
        said.add(AGAIN + run.options.again(0));
        return said;
    }

    /** Saves the history of the calls that are left, and a few calls of it that have no order. If these are not found, it saves only the
     * history. */
    private static List<String> shownLeft(Run run, String left) {
        String explained;
        try {
            explained = run.program.askTwice("explain", left).text;
        } catch (Stop stop) {
            return List.of("the few calls are not shown: " + stop.getMessage(), keep(run, ".json", left));
        }
        if (!explained.contains("\n{\"answer\":"))
            return List.of("the few calls are not shown: they are not found within a budget of " + run.program.more(), keep(run, ".json", left));
        List<String> said = new ArrayList<>(List.of(RENUMBERED));
        Round round = new Round(left);
        TreeSet<Long> invoked = new TreeSet<>();
        for (Object key : (List<?>) ((Map<?, ?>) Json.of(run.report.lines().findFirst().orElse(""))).get("keys"))
            for (Object event : (List<?>) ((Map<?, ?>) key).get("invoked"))
                invoked.add((Long) event);
        round.note(List.copyOf(invoked), run.notes);
        said.addAll(shown(run, left, explained, round));
        return said;
    }

    /** Why no history of few calls follows a no of a stream. */
    private static String whyNotFew(String report) {
        int most = -1;
        for (Object key : (List<?>) ((Map<?, ?>) Json.of(report)).get("keys"))
            most = Math.max(most, ((List<?>) ((Map<?, ?>) key).get("values")).size());
        return switch (most) {
            case -1 -> "no map gives a scan the answer of this event";
            case 0 -> "the call had taken effect by then, and its answer contradicts what it found";
            case 1 -> "the calls \"invoked\" may have taken effect in several ways, or they fit no history: they are too many, or too many are open "
                + "at once";
            default -> "a key may have had any of the listed values before the calls \"invoked\"";
        };
    }

    /** What a report of `explain` says of a history, and the files that show it. The words and the picture have the processes and events of the
     * first file. */
    private static List<String> shown(Run run, String text, String explained, Round round) {
        List<String> report = explained.lines().toList(), said = saidReport(report, round);
        if (run.options.cache != null)
            said.replaceAll(Potzendai::unmarked);
        String few = report.stream().filter(line -> line.startsWith("{\"events\"")).findFirst().map(line -> line + "\n").orElse(null);
        said.add(keep(run, ".json", text));
        if (few != null)
            said.add(keep(run, "-few.json", few));
        said.add(keepMade(run, "draw", ".svg", text));
        said.add(keepMade(run, "page", ".html", text));
        return said;
    }

    /** A round that has no order: what shows it, and how to repeat it. */
    private static List<String> refuted(Run run) {
        if (run.options.isStream)
            return refutedStream(run);
        Run least = run.smaller();
        List<String> said = new ArrayList<>();
        said.add("round " + (run.rounds - 1) + " has no order");
        said.add("the smallest of some tries that failed: threads " + least.options.threads + ", keys " + least.options.keys + ", calls "
            + least.options.calls);
        String text = least.failed.text();
        String kept = keep(run, ".json", text); // before: the part that explains may be built first
        try {
            said.addAll(shown(run, text, run.program.askTwice("explain", text).text, least.failed));
        } catch (Stop stop) {
            said.addAll(List.of(kept, "the few calls are not shown: " + stop.getMessage()));
        }
        said.add(AGAIN + run.options.again(run.rounds));
        return said;
    }

    // Words

    private static final String USAGE = """
        --seconds N       how long (10, or as long as --rounds take)
        --rounds N        at most N rounds
        --threads N       threads that call the map (4)
        --keys N          keys, from 0 (16; of a stream 1000)
        --hot N           nine calls in ten use one of the first N keys
        --calls N         calls of each thread in a round, or in a stream (200; no limit)
        --seed N          what the calls are drawn from (the clock)
        --mix LIST        shares, such as get=50,put=30,del=10,scan=10; also replace, put_if_absent, floor, ceiling, pop_first
        --void HOW        done: a put or del may answer done; told: it must say the value before; own: one writer for each key remembers
                          what it put; lock: a lock for each key around a get and the put after it (done)
        --scan HOW        snapshot: a scan is of one moment; steps: steps of ceiling (snapshot)
        --yield N         of a thousand points in and between calls, N let another thread run (0)
        --break HOW       makes the map wrong now and then: drop, race, replay, stale, zombie, torn or cas; all: in each of these ways
        --cache [late]    the map is a cache, which may lose any key at any time; late: its writes appear later, so a miss says nothing
        --fresh N         a new map after each N rounds (one map)
        --reopen          the map is closed and opened again after each round
        --stream          one stream, judged while it is recorded, in place of rounds
        --out FOLDER      where files are written (.); -: all histories, or the stream, on standard output, judged by nobody
        --budget N        states that a search may meet (100000); an undecided round is asked again at ten times as many
        --bench PATH      the program (./bench, or on the PATH)
        """;

    private static final class Options implements Cloneable {
        String name, voids = "done", broken, out = ".", bench, cache;
        long seconds, rounds, threads = 4, keys, hot, calls, yields, budget = 100000, shown = System.nanoTime();
        long seed = Math.floorMod(System.nanoTime() * 31 + System.currentTimeMillis(), 1000000007L);
        long fresh, span = SPAN;
        boolean hasDel, isSteps, isStream, isReopened, hasVoid, shows = System.console() != null;
        EnumMap<Kind, Long> shares;

        boolean isVoid(String how) { return voids.equals(how); }

        long total() { return shares.values().stream().mapToLong(Long::longValue).sum(); }

        /** Options with half of the calls or of the keys, or one thread less; null if that is not possible. */
        Options less(int how) {
            try {
                Options less = (Options) clone();
                less.calls = how == 0 ? calls / 2 : calls;
                less.keys = how == 1 ? keys / 2 : keys;
                less.threads = how == 2 ? threads - 1 : threads;
                less.rounds = 1;
                less.shows = false;
                return Math.min(Math.min(less.calls, less.threads), isVoid("own") ? less.keys / threads : less.keys) > 0 ? less : null;
            } catch (CloneNotSupportedException never) {
                throw new IllegalStateException(never);
            }
        }

        /** The options that repeat the draws of a run of this many rounds. */
        String again(long rounds) {
            String mix = shares.entrySet().stream().filter(one -> one.getValue() > 0).map(one -> one.getKey().name + "=" + one.getValue())
                .collect(Collectors.joining(","));
            return name + " --seed " + Long.toUnsignedString(seed) + " --threads " + threads + " --keys " + keys + (hot > 0 ? " --hot " + hot : "")
                + (calls > 0 ? " --calls " + calls : "") + " --mix " + mix + (hasVoid || !isStream ? " --void " + voids : "")
                + " --scan " + (isSteps ? "steps" : "snapshot") + (yields > 0 ? " --yield " + yields : "")
                + (cache == null ? "" : cache.equals("late") ? " --cache late" : " --cache") + (fresh > 0 ? " --fresh " + fresh : "")
                + (isReopened ? " --reopen" : "") + (broken != null ? " --break " + broken : "")
                + (isStream ? " --stream --seconds " + seconds : " --rounds " + rounds);
        }

        Options(String name, String[] words) {
            this.name = name;
            for (int i = 0; i < words.length; i++) {
                String next = i + 1 < words.length ? words[i + 1] : "";
                switch (words[i]) {
                    case "--stream" -> isStream = true;
                    case "--reopen" -> isReopened = true;
                    case "--cache" -> {
                        wrong(!next.isEmpty() && !next.startsWith("--") && !next.equals("late"), "--cache: only late may follow");
                        cache = next.equals("late") ? next : "now";
                        i += next.equals("late") ? 1 : 0;
                    }
                    default -> read(words[i++], next);
                }
            }
        }

        private void read(String word, String text) {
            switch (word) {
                case "--seconds" -> seconds = number(word, text, 1, 1000000000);
                case "--rounds" -> rounds = number(word, text, 1, Long.MAX_VALUE);
                case "--threads" -> threads = number(word, text, 1, 1024);
                case "--keys" -> keys = number(word, text, 1, STREAM_KEYS);
                case "--hot" -> hot = number(word, text, 1, STREAM_KEYS);
                case "--calls" -> calls = number(word, text, 1, Long.MAX_VALUE);
                case "--seed" -> seed = number(word, text, 0, GREATEST);
                case "--yield" -> yields = number(word, text, 0, 1000);
                case "--fresh" -> fresh = number(word, text, 1, Long.MAX_VALUE);
                case "--budget" -> budget = number(word, text, 1, 1000000);
                case "--void" -> {
                    voids = named(word, text, List.of("done", "told", "own", "lock"));
                    hasVoid = true;
                }
                case "--scan" -> isSteps = named(word, text, List.of("snapshot", "steps")).equals("steps");
                case "--break" -> broken = text.equals("all") ? text : named(word, text, List.copyOf(BREAKS.keySet()));
                case "--mix" -> shares = mix(text);
                case "--out" -> out = text;
                case "--bench" -> bench = text;
                default -> throw new Stop(WORDS, word + ": no such option; see --help");
            }
        }

        private static long number(String word, String text, long least, long most) {
            try {
                long number = Long.parseUnsignedLong(text);
                if (Long.compareUnsigned(least, number) <= 0 && Long.compareUnsigned(number, most) <= 0)
                    return number;
            } catch (NumberFormatException none) {
                // It is reported below.
            }
            throw new Stop(WORDS, word + ": a number from " + least + " to " + Long.toUnsignedString(most));
        }

        private static String named(String word, String text, List<String> names) {
            if (names.contains(text))
                return text;
            throw new Stop(WORDS, word + ": not one of its names; see --help");
        }

        private static EnumMap<Kind, Long> mix(String text) {
            EnumMap<Kind, Long> shares = new EnumMap<>(Kind.class);
            for (Kind kind : Kind.values())
                shares.put(kind, 0L);
            for (String part : text.split(",", -1)) {
                String[] pair = part.split("=", -1);
                Kind kind = Kind.named(pair[0]);
                if (kind == null || pair.length != 2 || !pair[1].matches("[0-9]{1,6}"))
                    throw new Stop(WORDS, "--mix: shares, such as get=50,put=30,del=10,scan=10");
                shares.put(kind, Long.parseLong(pair[1]));
            }
            return shares;
        }

        private static void wrong(boolean isWrong, String line) {
            if (isWrong)
                throw new Stop(WORDS, line);
        }

        /** Whether the functions that a broken map makes wrong are called; for `all`, whether those of one kind are. */
        boolean isCalled(String how) {
            return BREAKS.entrySet().stream().anyMatch(one -> (how.equals("all") || how.equals(one.getKey()))
                && shares.get(one.getValue()) > 0 && !(one.getKey().equals("torn") && isSteps));
        }

        /** Tests that the options fit each other and the functions of the map. */
        void fit(Set<Kind> has, boolean canReopen) {
            boolean isApart = isVoid("own") || isVoid("lock"), isUsual = shares == null;
            keys = keys > 0 ? keys : isStream ? 1000 : 16;
            shares = isUsual ? new EnumMap<>(Kind.class) : shares;
            for (Kind kind : Kind.values()) {
                boolean isThere = has.contains(kind == Kind.SCAN && isSteps ? Kind.CEILING : kind);
                wrong(kind == Kind.SCAN && isSteps && !isThere, "--scan: steps need the function ceiling");
                if (isUsual)
                    shares.put(kind, isThere && !(kind == Kind.POP_FIRST && isApart) ? kind.share : 0);
                wrong(shares.get(kind) > 0 && !isThere, kind.name + ": no such function of the map");
            }
            wrong(total() == 0, "--mix: no share");
            wrong(shares.get(Kind.POP_FIRST) > 0 && isApart, "pop_first: takes keys of other threads, so not with --void own or lock");
            wrong(broken != null && !isCalled(broken), "--break: no call that it would break is made");
            wrong(hot > keys, "--hot: more than there are keys");
            wrong(isVoid("own") && keys < threads, "--void: own: each thread needs a key");
            wrong(cache != null && isVoid("own"), "--cache: not with --void own, since the writer of a key does not see that the key was lost");
            wrong(isStream && fresh > 0, "--fresh: not with --stream, which is of one map");
            wrong(isStream && isReopened, "--reopen: not with --stream, which is of one map");
            wrong(isReopened && !canReopen, "--reopen: the map has no function reopen");
            calls = calls > 0 || isStream ? calls : Math.min(CALLS / (threads + 2), 200);
            seconds = seconds > 0 ? seconds : rounds > 0 ? 1000000000 : 10;
            wrong(isStream && rounds > 0, "--rounds: a stream has no rounds; use --seconds, or --calls for each thread");
            long most = CALLS / (threads + 1);
            String size = "at most " + most + " with " + threads + " threads, since a round has at most " + CALLS + " calls";
            wrong(!isStream && threads >= PROCESSES, "--threads: at most 63 in rounds; --stream has no such limit");
            wrong(!isStream && keys > most, "--keys: " + size + ", with a get of each key at its end; --stream has no such limit");
            wrong(!isStream && calls > most, "--calls: " + size + "; --stream has no such limit");
            hasDel = has.contains(Kind.DEL);
            if (cache != null && !isStream)
                span = Math.max(1, Math.min(SPAN, (PROCESSES - 1 - threads) / threads)); // each missing key needs a process
            checkOut();
        }

        /** Tests whether a file can be written into the folder for files: one is written there, and removed. */
        private void checkOut() {
            if (out.equals("-"))
                return;
            try {
                Files.delete(Files.createTempFile(Path.of(out), ".potzendai-", ""));
            } catch (IOException | InvalidPathException error) {
                throw new Stop(FILE, "--out: no file can be written into " + out + ": " + cause(error));
            }
        }

        /** Why a file cannot be written, without the path that it would have. */
        private static String cause(Exception error) {
            if (error instanceof NoSuchFileException)
                return "No such file or directory";
            if (error instanceof AccessDeniedException)
                return "Permission denied";
            String reason = error instanceof FileSystemException file ? file.getReason() : null;
            return reason != null ? reason : error.getMessage();
        }
    }

    /** Which functions a map has: those that it overrides. */
    private static Set<Kind> functions(Index map) {
        Index connection = map.connection();
        Set<Kind> has = new HashSet<>(Set.of(Kind.GET, Kind.PUT));
        Map<String, Kind> names = Map.of("del", Kind.DEL, "scan", Kind.SCAN, "replace", Kind.REPLACE, "putIfAbsent", Kind.PUT_IF_ABSENT,
            "floor", Kind.FLOOR, "ceiling", Kind.CEILING, "popFirst", Kind.POP_FIRST);
        for (var method : connection.getClass().getMethods())
            if (names.containsKey(method.getName()) && method.getReturnType() == Said.class && method.getDeclaringClass() != Index.class)
                has.add(names.get(method.getName()));
        if (connection != map)
            connection.close();
        map.close();
        return has;
    }

    private static boolean canReopen(Index map) {
        return Arrays.stream(map.getClass().getMethods()).anyMatch(method -> method.getName().equals("reopen") && method.getParameterCount() == 0
            && method.getDeclaringClass() != Index.class);
    }

    /** How often the threads called each function of the map, and which functions it does not have. */
    private static String saidCalls(Set<Kind> has, EnumMap<Kind, Long> called) {
        List<String> calls = new ArrayList<>(), missing = new ArrayList<>();
        for (Kind kind : Kind.values())
            if (has.contains(kind))
                calls.add(kind.name + " " + called.getOrDefault(kind, 0L));
            else
                missing.add(kind.name);
        return "calls: " + String.join(", ", calls) + (missing.isEmpty() ? "" : "; not there: " + String.join(", ", missing));
    }

    /** How a run went: its status, the lines to print before the last line, and that line. */
    private record Outcome(int status, List<String> said, String last) { }

    private static Outcome tested(String name, Supplier<? extends Index> make, String... words) {
        Options options = new Options(name, words);
        Index map = make.get();
        boolean canReopen = canReopen(map);
        Set<Kind> has = functions(map);
        options.fit(has, canReopen);
        Program program = options.out.equals("-") ? null : Program.of(options);
        if ("all".equals(options.broken))
            return allBroken(options, make, program, has);
        Run run = new Run(options, make, program).go(0);
        String calls = saidCalls(has, run.called);
        if (run.failed != null) {
            List<String> said = refuted(run);
            said.add(calls);
            return new Outcome(NO, said, run.summary("no"));
        }
        boolean isEmpty = program != null && options.cache != null && run.tally.hits == 0;
        int status = run.undecided > 0 || !run.cut.isEmpty() || isEmpty ? UNDECIDED : YES;
        if (program != null && options.broken != null && status == YES)
            run.cut.add("--break " + options.broken + ": the map was wrong now and then, and these calls did not show it");
        run.cut.add(calls);
        if (program != null)
            return new Outcome(status, run.cut, run.summary(VERDICTS.get(status)));
        run.cut.add(run.summary("not judged"));
        return new Outcome(status, run.cut, "");
    }

    /** Each kind of bug that the drawn calls can show has to be refuted. Then the status is that of a no. */
    private static Outcome allBroken(Options options, Supplier<? extends Index> make, Program program, Set<Kind> has) {
        List<String> said = new ArrayList<>();
        EnumMap<Kind, Long> called = new EnumMap<>(Kind.class);
        int missed = 0;
        for (String how : BREAKS.keySet()) {
            options.broken = how;
            Run run = options.isCalled(how) ? new Run(options, make, program).go(0) : null;
            if (run != null)
                run.called.forEach((kind, count) -> called.merge(kind, count, Long::sum));
            missed += run != null && (run.failed == null || run.wrongTimes == 0) ? 1 : 0;
            String verdict = run == null || run.failed == null ? "yes" : run.wrongTimes > 0 ? "no" : "no of the map itself";
            said.add(how + ": " + (run == null ? "no call that it would break is made" : run.summary(verdict)));
        }
        said.add(saidCalls(has, called));
        said.add("this shows that calls and answers reach the judge; it does not show that threads meet: see the overlap");
        return missed > 0 ? new Outcome(YES, said, "yes: " + missed + " of the broken maps were not refuted")
            : new Outcome(NO, said, "no: each broken map was refuted");
    }

    /** Prints a text, and returns the status. If standard output has no room, a yes gets another status. */
    private static int printed(int status, String text) {
        System.out.println(text);
        if (!System.out.checkError())
            return status;
        System.err.println("standard output: not written");
        return status == YES ? FILE : status;
    }

    /** A whole program: it reports how the run went, and returns the status. `make` makes a new and empty map for each run. */
    public static int run(String name, Supplier<? extends Index> make, String... words) {
        try {
            if (List.of(words).contains("--help") || List.of(words).contains("-h"))
                return printed(YES, "usage: " + name + " [OPTIONS]\n" + USAGE.indent(2).stripTrailing());
            Outcome outcome = tested(name, make, words);
            outcome.said.forEach(System.err::println);
            return outcome.last.isEmpty() && !System.out.checkError() ? outcome.status : printed(outcome.status, outcome.last);
        } catch (Stop stop) {
            System.err.println(stop.getMessage());
            return stop.status;
        } catch (OutOfMemoryError memory) {
            System.err.println("memory");
            return MEMORY;
        } catch (RuntimeException error) {
            error.printStackTrace();
            return FILE;
        }
    }

    /** For a test: throws with the explanation if the verdict is not yes. */
    public static void check(String name, Supplier<? extends Index> make, String... words) {
        Outcome outcome = tested(name, make, words);
        if (outcome.status != YES)
            throw new AssertionError(String.join("\n", outcome.said) + "\n" + outcome.last);
    }

    /** Tests the ConcurrentSkipListMap of java.util.concurrent. */
    public static void main(String[] words) {
        System.exit(run("ConcurrentSkipListMap", () -> of(new ConcurrentSkipListMap<>()), words));
    }

    private Potzendai() { }
}
