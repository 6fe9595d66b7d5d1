import java.util.NavigableMap;
import java.util.TreeMap;

/** A map under a lock, tested: README.md says how it is run. */
public final class LockedMap implements Potzendai.Index {
    private final NavigableMap<Long, Long> pairs = new TreeMap<>();

    @Override public synchronized Potzendai.Said get(long key) { return Potzendai.Said.told(pairs.get(key)); }
    @Override public synchronized Potzendai.Said put(long key, long value) { return Potzendai.Said.told(pairs.put(key, value)); }
    @Override public synchronized Potzendai.Said del(long key) { return Potzendai.Said.told(pairs.remove(key)); }

    @Override public synchronized Potzendai.Said scan(long low, long high) {
        return Potzendai.Said.pairs(pairs.subMap(low, true, high, true));
    }

    @Override public synchronized Potzendai.Said replace(long key, long old, long value) {
        Long before = pairs.get(key);
        pairs.replace(key, old, value);
        return Potzendai.Said.told(before);
    }

    public static void main(String[] words) {
        System.exit(Potzendai.run("LockedMap", LockedMap::new, words));
    }
}
