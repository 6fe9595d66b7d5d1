import com.github.benmanes.caffeine.cache.Caffeine;
import com.google.common.cache.CacheBuilder;
import com.google.common.cache.CacheLoader;
import java.util.Arrays;
import java.util.Optional;
import java.util.concurrent.ConcurrentHashMap;
import java.util.concurrent.ConcurrentMap;
import java.util.function.Consumer;
import java.util.function.Function;

/** Caffeine and Guava, tested: each as a cache, and each loading from a map in place of a database. README.md says how they are run. */
public final class JavaCaches {
    private static final int ENTRIES = 4, LOADED = 8;

    private JavaCaches() { }

    /** A loading cache and its database as one map: a write goes to the database, and then invalidates. It loses nothing. */
    private static final class Loading implements Potzendai.Index {
        private final ConcurrentMap<Long, Long> database = new ConcurrentHashMap<>();
        private final Function<Long, Optional<Long>> get;
        private final Consumer<Long> invalidate;

        Loading(boolean isGuava) {
            if (isGuava) {
                var cache = CacheBuilder.newBuilder().maximumSize(LOADED).concurrencyLevel(1).build(CacheLoader.from(this::load));
                get = cache::getUnchecked;
                invalidate = cache::invalidate;
            } else {
                var cache = Caffeine.newBuilder().maximumSize(LOADED).build(this::load);
                get = cache::get;
                invalidate = cache::invalidate;
            }
        }

        private Optional<Long> load(Long key) {
            Optional<Long> read = Optional.ofNullable(database.get(key));
            Potzendai.point();
            return read;
        }

        private Potzendai.Said written(long key, Long before) {
            Potzendai.point();
            invalidate.accept(key);
            return Potzendai.Said.told(before);
        }

        @Override public Potzendai.Said get(long key) { return Potzendai.Said.told(get.apply(key).orElse(null)); }
        @Override public Potzendai.Said put(long key, long value) { return written(key, database.put(key, value)); }
        @Override public Potzendai.Said del(long key) { return written(key, database.remove(key)); }
    }

    /** The weight of a pair, which a cache asks for within its writes: another thread may get in there. */
    private static int weigh(Long key, Long value) {
        Potzendai.point();
        return 1;
    }

    private static Potzendai.Index made(String which) {
        return switch (which) {
            case "caffeine" -> Potzendai.of(Caffeine.newBuilder().maximumWeight(ENTRIES).weigher(JavaCaches::weigh).build().asMap());
            case "guava" -> Potzendai.of(
                CacheBuilder.newBuilder().maximumWeight(ENTRIES).concurrencyLevel(1).weigher(JavaCaches::weigh).build().asMap());
            default -> new Loading(which.equals("guava-loading"));
        };
    }

    /** Makes a run, and returns its status. */
    public static int run(String[] words) {
        if (words.length == 0 || !Arrays.asList("caffeine", "guava", "caffeine-loading", "guava-loading").contains(words[0])) {
            System.err.println("JavaCaches: the first argument is caffeine, guava, caffeine-loading or guava-loading");
            return 5;
        }
        return Potzendai.run(words[0], () -> made(words[0]), Arrays.copyOfRange(words, 1, words.length));
    }

    public static void main(String[] words) { System.exit(run(words)); }
}
