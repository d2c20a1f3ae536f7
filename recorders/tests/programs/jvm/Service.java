import java.io.IOException;
import java.util.ArrayList;
import java.util.List;

/** A service whose log has two entries. It runs until its standard input ends. */
public class Service {
    static final class Entry { }

    static final List<Entry> LOG = new ArrayList<>();

    public static void main(String[] words) throws IOException {
        LOG.add(new Entry());
        LOG.add(new Entry());
        System.out.println("ready");
        System.in.read();
    }
}
