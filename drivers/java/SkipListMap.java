import java.util.Arrays;
import java.util.concurrent.ConcurrentHashMap;
import java.util.concurrent.ConcurrentSkipListMap;

/**
 * The ordered map of java.util.concurrent: its calls at one key, and its steps from key to key, are each of one moment, so the verdict is
 * yes. As `ranges` its sub-maps are recorded as if they were, which they do not promise: the verdict is no. As `hash`, a map without order.
 */
public final class SkipListMap {
    private SkipListMap() { }

    public static void main(String[] words) {
        String which = words.length > 0 && !words[0].startsWith("--") ? words[0] : "steps";
        String[] rest = Arrays.copyOfRange(words, words.length > 0 && !words[0].startsWith("--") ? 1 : 0, words.length);
        System.exit(switch (which) {
            case "ranges" -> Potzendai.run("ranges", () -> Potzendai.ofRanges(new ConcurrentSkipListMap<>()), rest);
            case "hash" -> Potzendai.run("hash", () -> Potzendai.of(new ConcurrentHashMap<>()), rest);
            default -> Potzendai.run("steps", () -> Potzendai.of(new ConcurrentSkipListMap<>()), rest);
        });
    }
}
