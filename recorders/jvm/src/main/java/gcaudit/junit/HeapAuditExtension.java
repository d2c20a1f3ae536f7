package gcaudit.junit;

import gcaudit.HeapAudit;
import org.junit.jupiter.api.extension.AfterEachCallback;
import org.junit.jupiter.api.extension.ExtensionContext;
import org.junit.jupiter.api.extension.ExtensionContext.Namespace;
import org.junit.jupiter.api.extension.ParameterContext;
import org.junit.jupiter.api.extension.ParameterResolver;

/**
 * Gives a test of JUnit 5 a {@link HeapAudit}, and checks it when the test and its {@code @AfterEach} methods are over.
 *
 * <pre>{@code
 * @ExtendWith(HeapAuditExtension.class)
 * class ShopTest {
 *     @Test
 *     void sessionIsGone(HeapAudit heap) {
 *         heap.assertDead(shop.logout("ada"));
 *     }
 * }
 * }</pre>
 *
 * <p>The variables of the test method are gone by then; the fields of the test class are not. Where the test itself failed,
 * the heap isn't checked.
 */
public final class HeapAuditExtension implements ParameterResolver, AfterEachCallback {
    private static final Namespace NAMESPACE = Namespace.create(HeapAuditExtension.class);

    /** An extension that has given no audit yet. JUnit calls it. */
    public HeapAuditExtension() { }

    @Override
    public boolean supportsParameter(ParameterContext parameter, ExtensionContext test) {
        return parameter.getParameter().getType() == HeapAudit.class && test.getTestMethod().isPresent();
    }

    @Override
    public Object resolveParameter(ParameterContext parameter, ExtensionContext test) {
        return test.getStore(NAMESPACE).getOrComputeIfAbsent(test.getUniqueId(), key -> HeapAudit.start(), HeapAudit.class);
    }

    @Override
    public void afterEach(ExtensionContext test) {
        HeapAudit audit = test.getStore(NAMESPACE).remove(test.getUniqueId(), HeapAudit.class);
        if (audit == null) {
            return;
        }
        if (test.getExecutionException().isPresent()) {
            audit.abandon();
        } else {
            audit.close();
        }
    }
}
