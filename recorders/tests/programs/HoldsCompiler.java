import com.sun.source.tree.CompilationUnitTree;
import com.sun.source.util.JavacTask;
import java.net.URI;
import java.util.ArrayList;
import java.util.List;
import javax.tools.JavaCompiler;
import javax.tools.JavaFileObject;
import javax.tools.SimpleJavaFileObject;
import javax.tools.ToolProvider;

/** Holds the trees and symbols of javac for so many classes: a heap of many small objects that hold one another in circles. */
public class HoldsCompiler {
    /** What is looked for among them. */
    static class Big {
        final Object tree;
        Big(Object tree) { this.tree = tree; }
    }

    static class EndedBig extends Big {
        EndedBig(Object tree) { super(tree); }
    }

    static final List<Big> ALL = new ArrayList<>();
    static JavacTask task;

    static String source(int number) {
        StringBuilder text = new StringBuilder("package made;\nclass Made" + number + " {\n");
        for (int at = 0; at < 20; at++) {
            text.append("  int field" + at + " = " + at + ";\n  int method" + at + "(int a, String b) { int c = a + field" + at
                        + " * 2; for (int i = 0; i < c; i++) { c += b.length() + i; } return new Made" + (number / 2) + "().method0(c, b + \"x\"); }\n");
        }
        return text.append("}\n").toString();
    }

    public static void main(String[] words) throws Exception {
        List<JavaFileObject> files = new ArrayList<>();
        for (int number = 0; number < Integer.parseInt(words[0]); number++) {
            String text = source(number);
            files.add(new SimpleJavaFileObject(URI.create("string:///made/Made" + number + ".java"), JavaFileObject.Kind.SOURCE) {
                @Override
                public CharSequence getCharContent(boolean ignore) { return text; }
            });
        }
        JavaCompiler compiler = ToolProvider.getSystemJavaCompiler();
        task = (JavacTask) compiler.getTask(null, null, null, null, null, files);
        List<Object> trees = new ArrayList<>();
        for (CompilationUnitTree tree : task.parse()) {
            trees.add(tree);
        }
        task.analyze();
        for (int at = 0; at < trees.size(); at += 10) {
            ALL.add(at == 0 ? new EndedBig(trees.get(at)) : new Big(trees.get(at)));
        }
        System.out.println("ready");
        System.in.read();
    }
}
