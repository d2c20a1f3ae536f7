import java.util.ArrayList;
import java.util.List;

/** Sessions of which every object is of a subclass, some of them anonymous. It says "ready" and waits until its input ends. */
public class Subclasses {
    static class Session { int visits; void end() { visits = 0; } }

    static class SessionProxy extends Session { }

    static class Config { }

    static class OtherConfig extends Config { }

    static class Box { Object item; }

    static class BoxProxy extends Box { }

    static class Item { }

    static class ItemProxy extends Item { }

    static class Unused { }

    interface Listener { }

    static class Heard implements Listener { }

    static final List<Object> KEPT = new ArrayList<>(), RECENT = new ArrayList<>();
    static final Box BOX = new BoxProxy();
    static final Class<?>[] LOADED = {new Unused[0].getClass().getComponentType(), new Session[0].getClass().getComponentType()};

    public static void main(String[] words) throws Exception {
        if (words[0].equals("leak")) {
            KEPT.add(new SessionProxy());
            KEPT.add(new Session() { @Override void end() { KEPT.clear(); } });
            KEPT.add(new OtherConfig());
            RECENT.add(new ItemProxy());
            RECENT.add(new Heard());
        }
        KEPT.add(new Config());
        BOX.item = new ItemProxy();
        System.out.println("ready");
        System.in.read();
    }
}
