import gcaudit.HeapAudit;
import gcaudit.junit.HeapAuditExtension;
import java.util.ArrayList;
import java.util.List;
import org.junit.jupiter.api.AfterEach;
import org.junit.jupiter.api.BeforeEach;
import org.junit.jupiter.api.Test;
import org.junit.jupiter.api.extension.ExtendWith;

/** Tests of a shop, one of which leaks by the property `leaks`, and one of which asserts nothing by the property `empty`. */
@ExtendWith(HeapAuditExtension.class)
class ShopTest {
    static final class Session { }

    static final class Bus {
        final List<Session> listeners = new ArrayList<>();

        Session login() {
            Session session = new Session();
            listeners.add(session);
            return session;
        }

        void logout(Session session) {
            if (!Boolean.getBoolean("leaks")) {
                listeners.remove(session);
            }
        }
    }

    static final Bus BUS = new Bus();
    Session ofSetUp;

    @BeforeEach
    void setUp(HeapAudit heap) {
        ofSetUp = new Session();
        if (!Boolean.getBoolean("empty")) {
            heap.assertDead(ofSetUp);
        }
    }

    @AfterEach
    void tearDown() {
        ofSetUp = null;
    }

    @Test
    void sessionIsGone(HeapAudit heap) {
        Session session = BUS.login();
        BUS.logout(session);
        if (!Boolean.getBoolean("empty")) {
            heap.assertDead(session);
        }
    }

    @Test
    void oneSessionAtATime(HeapAudit heap) {
        if (!Boolean.getBoolean("empty")) {
            heap.assertInstances(Bus.class, 1);
        }
    }
}
