import java.io.File;
import org.graalvm.visualvm.lib.jfluid.heap.Heap;
import org.graalvm.visualvm.lib.jfluid.heap.HeapFactory;
import org.graalvm.visualvm.lib.jfluid.heap.Instance;
import org.graalvm.visualvm.lib.jfluid.heap.JavaClass;

/** Says of each class of a dump, by VisualVM's library, how many objects it has, and how many of these a root reaches. */
public class ReachedByVisualVM {
    public static void main(String[] words) throws Exception {
        Heap heap = HeapFactory.createHeap(new File(words[0]));
        for (Object each : heap.getAllClasses()) {
            JavaClass type = (JavaClass) each;
            int reached = 0;
            for (Object found : type.getInstances()) {
                Instance one = (Instance) found;
                if (one.isGCRoot() || one.getNearestGCRootPointer() != null) {
                    reached++;
                }
            }
            System.out.println(type.getName() + " " + type.getInstancesCount() + " " + reached);
        }
        System.exit(0);
    }
}
