import java.io.ByteArrayOutputStream;
import java.util.HashMap;
import java.util.Map;

/** A cache of texts, an array of numbers and a buffer, the larger the greater the number that it is given. It says "ready" and waits until its input ends. */
public class Growing {
    static final Map<Integer, String> TEXTS = new HashMap<>();
    static final ByteArrayOutputStream BUFFER = new ByteArrayOutputStream();
    static long[] numbers;

    public static void main(String[] words) throws Exception {
        int rounds = Integer.parseInt(words[0]);
        for (int at = 0; at < 100 * rounds; at++) {
            TEXTS.put(at, "x".repeat(10000) + at);
        }
        BUFFER.write(new byte[3000000 * rounds]);
        numbers = new long[250000 * rounds];
        System.out.println("ready");
        System.in.read();
    }
}
