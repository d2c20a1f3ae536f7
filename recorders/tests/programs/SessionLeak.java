import java.lang.ref.SoftReference;
import java.lang.ref.WeakReference;
import java.util.ArrayList;
import java.util.HashMap;
import java.util.LinkedList;
import java.util.List;
import java.util.Map;

/** A service whose event bus may keep a session that ended. It says "ready" and waits until its input ends. */
public class SessionLeak {
    static class Event { }

    static class Session {
        final String name;
        final List<Event> seen = new ArrayList<>();
        boolean ended;
        Session(String name) { this.name = name; }
    }

    static class EndedSession extends Session {
        EndedSession(Session from) { super(from.name); }
    }

    static class Listener {
        final Session session;
        Listener(Session session) { this.session = session; }
    }

    static class EventBus {
        final List<Listener> listeners = new ArrayList<>();
    }

    static class Config { }

    static class Box { Object item; }

    static class Item { }

    static class Node { Node left, right; }

    static class Sleeper extends Thread {
        Sleeper(String name) { super(name); }

        @Override
        public void run() {
            try {
                sleep(Long.MAX_VALUE);
            } catch (InterruptedException end) {
                return;
            }
        }
    }

    static final EventBus BUS = new EventBus();
    static final Map<String, Session> SESSIONS = new HashMap<>();
    static final LinkedList<Object> RECENT = new LinkedList<>();
    static final Config CONFIG = new Config();
    static final Box BOX = new Box();
    static final Node TREE = new Node();
    static Config second;
    static WeakReference<Session> weak;
    static SoftReference<Session> soft;
    static Object[] bulk;

    public static void main(String[] words) throws Exception {
        boolean leaks = words[0].equals("leak");
        SESSIONS.put("ada", new Session("ada"));
        EndedSession ended = new EndedSession(new Session("bob"));
        Listener listener = new Listener(ended);
        BUS.listeners.add(listener);
        weak = new WeakReference<>(ended);
        soft = new SoftReference<>(ended);
        BOX.item = new Item();
        TREE.left = new Node();
        TREE.right = new Node();
        TREE.left.left = new Node();
        if (leaks) {
            second = new Config();
            RECENT.add(BOX.item);
            BOX.item = null;
            TREE.right.left = TREE.left.left;
        } else {
            BUS.listeners.remove(listener);
            soft = null;
        }
        ended = null;
        listener = null;
        if (words.length > 1) {
            int count = Integer.parseInt(words[1]);
            bulk = new Object[count];
            for (int at = 0; at < count; at++) {
                bulk[at] = new Object[] {"text" + at, new int[4], new ArrayList<>(List.of(at))};
            }
        }
        for (String name : new String[] {"d\u00e9p\u00f4t", "\u5009\u5eab"}) {
            Thread thread = new Sleeper(name);
            thread.setDaemon(true);
            thread.start();
        }
        System.out.println("ready");
        System.in.read();
    }
}
