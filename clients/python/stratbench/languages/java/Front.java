import com.sun.source.tree.*;
import com.sun.source.util.*;
import java.io.*;
import java.lang.reflect.Method;
import java.net.URI;
import java.nio.charset.StandardCharsets;
import java.util.*;
import java.util.regex.*;
import javax.tools.*;

/**
 * The front end for Java, over the JDK's own compiler, of 17 or later: it parses only, so that no class path is needed. languages/front.py has
 * what it is asked, and what it answers. Its argument has the fields of the grammar's constructors, as {@code Name:field,field;..}.
 */
public class Front {
    static final Map<String, List<String>> FIELDS = new HashMap<>();
    static final JavaCompiler COMPILER = ToolProvider.getSystemJavaCompiler();
    static final StandardJavaFileManager MANAGER = COMPILER == null ? null : COMPILER.getStandardFileManager(null, null, null);
    static final Map<Tree.Kind, String> OPERATORS = new EnumMap<>(Tree.Kind.class);
    static {
        String all = "MULTIPLY * DIVIDE / REMAINDER % PLUS + MINUS - LEFT_SHIFT << RIGHT_SHIFT >> UNSIGNED_RIGHT_SHIFT >>> LESS_THAN < GREATER_THAN > "
            + "LESS_THAN_EQUAL <= GREATER_THAN_EQUAL >= EQUAL_TO == NOT_EQUAL_TO != AND & XOR ^ OR | CONDITIONAL_AND && CONDITIONAL_OR || "
            + "PREFIX_INCREMENT ++ PREFIX_DECREMENT -- POSTFIX_INCREMENT ++ POSTFIX_DECREMENT -- UNARY_PLUS + UNARY_MINUS - BITWISE_COMPLEMENT ~ "
            + "LOGICAL_COMPLEMENT ! MULTIPLY_ASSIGNMENT *= DIVIDE_ASSIGNMENT /= REMAINDER_ASSIGNMENT %= PLUS_ASSIGNMENT += MINUS_ASSIGNMENT -= "
            + "LEFT_SHIFT_ASSIGNMENT <<= RIGHT_SHIFT_ASSIGNMENT >>= UNSIGNED_RIGHT_SHIFT_ASSIGNMENT >>>= AND_ASSIGNMENT &= XOR_ASSIGNMENT ^= OR_ASSIGNMENT |=";
        String[] words = all.split(" ");
        for (int at = 0; at < words.length; at += 2) OPERATORS.put(Tree.Kind.valueOf(words[at]), words[at + 1]);
    }

    /** A node that the compiler's tree doesn't have. */
    record Node(String name, int first, int last, Object... fields) {}

    /** A tree that isn't read. */
    static class Refused extends Exception {
        final int place;
        Refused(int place, String message) { super(message); this.place = place; }
    }

    final String text;
    final int[] bytes;
    final boolean places;
    final StringBuilder out = new StringBuilder();
    CompilationUnitTree unit;
    SourcePositions positions;
    int terms, deepest;

    Front(String text, boolean places) {
        this.text = text;
        this.places = places;
        bytes = new int[text.length() + 1];
        for (int at = 0; at < text.length(); at++) {
            char it = text.charAt(at);
            bytes[at + 1] = bytes[at] + (it < 0x80 ? 1 : it < 0x800 ? 2 : Character.isHighSurrogate(it) ? 4 : Character.isLowSurrogate(it) ? 0 : 3);
        }
    }

    int first(Tree it) { return (int) positions.getStartPosition(unit, it); }
    int last(Tree it) { return (int) positions.getEndPosition(unit, it); }
    Node node(String name, Tree at, Object... fields) { return new Node(name, first(at), last(at), fields); }

    // --- the text of the term

    void write(Object it, int level) throws Exception {
        if (it instanceof ParenthesizedTree) { write(((ParenthesizedTree) it).getExpression(), level); return; }
        terms++;
        deepest = Math.max(deepest, level);
        if (it == null) out.append("Absent");
        else if (it instanceof Boolean) out.append((Boolean) it ? "True" : "False");
        else if (it instanceof Collection) list((Collection<?>) it, level);
        else if (it instanceof Node) application((Node) it, level);
        else if (it instanceof Tree) application(shaped((Tree) it), level);
        else quoted(it.toString());
    }

    void list(Collection<?> all, int level) throws Exception {
        out.append('[');
        String comma = "";
        for (Object one : all) { out.append(comma); comma = ","; write(one, level + 1); }
        out.append(']');
    }

    void application(Node it, int level) throws Exception {
        List<String> fields = FIELDS.get(it.name);
        if (fields == null || fields.size() != it.fields.length) throw new Refused(Math.max(0, it.first), "no constructor for " + it.name);
        out.append(it.name);
        for (int at = 0; at < it.fields.length; at++) { out.append(at == 0 ? '(' : ','); write(it.fields[at], level + 1); }
        if (it.fields.length > 0) out.append(')');
        if (places && it.first >= 0 && it.last >= it.first) {
            out.append("{(").append(bytes[it.first]).append(',').append(bytes[it.last]).append(")}");
            terms += 3;
            deepest = Math.max(deepest, level + 2);
        }
    }

    void quoted(String name) {
        out.append('"');
        for (byte it : name.getBytes(StandardCharsets.UTF_8)) {
            int one = it & 255;
            if (one == '"' || one == '\\') out.append('\\').append((char) one);
            else if (one < 32 || one > 126) out.append(String.format("\\%03o", one));
            else out.append((char) one);
        }
        out.append('"');
    }

    // --- the nodes

    /** The node of a tree whose getters are its fields. */
    Node plain(Tree it) throws Exception {
        String name = it.getKind().asInterface().getSimpleName();
        name = name.equals("LambdaExpressionTree") ? "Lambda" : name.substring(0, name.length() - 4);
        List<String> fields = FIELDS.get(name);
        if (fields == null) throw new Refused(Math.max(0, first(it)), "no constructor for " + name);
        Object[] values = new Object[fields.size()];
        for (int at = 0; at < values.length; at++) values[at] = field(it, fields.get(at));
        return node(name, it, values);
    }

    Object field(Tree it, String field) throws Exception {
        if (field.equals("operator")) return OPERATORS.get(it.getKind());
        String end = Character.toUpperCase(field.charAt(0)) + field.substring(1);
        Class<?> type = it.getKind().asInterface();
        Method getter;
        try { getter = type.getMethod("get" + end); } catch (NoSuchMethodException none) { getter = type.getMethod("is" + end); }
        Object found = getter.invoke(it);
        return found instanceof Collection && field.equals("statements") ? statements((Collection<?>) found) : found;
    }

    /** What differs from the compiler's tree. */
    Node shaped(Tree it) throws Exception {
        if (it instanceof ClassTree) return type((ClassTree) it);
        if (it instanceof ModifiersTree) return modifiers((ModifiersTree) it);
        if (it instanceof MethodTree) return method((MethodTree) it);
        if (it instanceof VariableTree) return variable((VariableTree) it, "Variable");
        if (it instanceof LiteralTree) return literal((LiteralTree) it);
        if (it instanceof ForLoopTree) {
            ForLoopTree loop = (ForLoopTree) it;
            List<Object> update = new ArrayList<>();
            for (ExpressionStatementTree one : loop.getUpdate()) update.add(one.getExpression());
            return node("ForLoop", it, initializers(loop.getInitializer()), loop.getCondition(), update, loop.getStatement());
        }
        if (it instanceof EnhancedForLoopTree) {
            EnhancedForLoopTree loop = (EnhancedForLoopTree) it;
            return node("EnhancedForLoop", it, variable(loop.getVariable(), "ForVariable"), loop.getExpression(), loop.getStatement());
        }
        if (it instanceof TryTree) {
            TryTree tried = (TryTree) it;
            List<Object> resources = new ArrayList<>();
            for (Tree one : tried.getResources()) resources.add(one instanceof VariableTree ? variable((VariableTree) one, "Resource") : one);
            return node("Try", it, resources, tried.getBlock(), tried.getCatches(), tried.getFinallyBlock());
        }
        if (it instanceof CatchTree) return node("Catch", it, variable(((CatchTree) it).getParameter(), "Parameter"), ((CatchTree) it).getBlock());
        if (it instanceof LambdaExpressionTree) {
            List<Object> parameters = new ArrayList<>();
            for (VariableTree one : ((LambdaExpressionTree) it).getParameters()) parameters.add(variable(one, "Parameter"));
            return node("Lambda", it, parameters, ((LambdaExpressionTree) it).getBody());
        }
        if (it instanceof BindingPatternTree) return node("BindingPattern", it, variable(((BindingPatternTree) it).getVariable(), "Parameter"));
        if (it instanceof UnaryTree && it.getKind().name().startsWith("POSTFIX")) return node("Postfix", it, ((UnaryTree) it).getExpression(), OPERATORS.get(it.getKind()));
        if (it instanceof InstanceOfTree) {
            InstanceOfTree test = (InstanceOfTree) it;
            return node("InstanceOf", it, test.getExpression(), test.getPattern() != null ? test.getPattern() : test.getType());
        }
        if (it instanceof MemberReferenceTree) {
            MemberReferenceTree made = (MemberReferenceTree) it;
            Object name = made.getMode() == MemberReferenceTree.ReferenceMode.NEW ? "new" : made.getName();
            return node("MemberReference", it, made.getQualifierExpression(), made.getTypeArguments() == null ? List.of() : made.getTypeArguments(), name);
        }
        if (it instanceof MethodInvocationTree) return invocation((MethodInvocationTree) it);
        if (it instanceof ArrayTypeTree) return arrayType((ArrayTypeTree) it);
        if (it instanceof WildcardTree) {
            Tree bound = ((WildcardTree) it).getBound();
            return it.getKind() == Tree.Kind.EXTENDS_WILDCARD ? node("ExtendsWildcard", it, bound) : it.getKind() == Tree.Kind.SUPER_WILDCARD ? node("SuperWildcard", it, bound) : node("UnboundedWildcard", it);
        }
        if (it instanceof NewArrayTree) return newArray((NewArrayTree) it);
        if (it instanceof PrimitiveTypeTree) return node("PrimitiveType", it, ((PrimitiveTypeTree) it).getPrimitiveTypeKind().toString().toLowerCase());
        if (it instanceof CaseTree) return branch((CaseTree) it);
        if (it instanceof BlockTree && ((BlockTree) it).isStatic()) return node("Initializer", it, true, statements(((BlockTree) it).getStatements()));
        if (it instanceof AnnotationTree) return annotation((AnnotationTree) it);
        String name = it.getKind().name();
        if (name.equals("CONSTANT_CASE_LABEL") || name.equals("PATTERN_CASE_LABEL")) {
            Method getter = it.getKind().asInterface().getMethod(name.startsWith("C") ? "getConstantExpression" : "getPattern");
            return shaped((Tree) getter.invoke(it));
        }
        return plain(it);
    }

    Node type(ClassTree it) throws Exception {
        Object mods = modifiers(it.getModifiers());
        String name = it.getSimpleName().toString();
        Object members = members(it);
        switch (it.getKind().name()) {
            case "INTERFACE": return node("Interface", it, mods, name, it.getTypeParameters(), it.getImplementsClause(), it.getPermitsClause(), members);
            case "ENUM": return node("Enum", it, mods, name, it.getImplementsClause(), enumBody(it));
            case "RECORD": return node("Record", it, mods, name, it.getTypeParameters(), components(it), it.getImplementsClause(), members);
            case "ANNOTATION_TYPE": return node("AnnotationType", it, mods, name, members);
            default:
                if (name.isEmpty()) return new Node("AnonymousBody", sign('{', Math.max(first(it), last(it.getModifiers()))), last(it), members);
                return node("Class", it, mods, name, it.getTypeParameters(), it.getExtendsClause(), it.getImplementsClause(), it.getPermitsClause(), members);
        }
    }

    /** Where a sign is from a place on, outside of comments. */
    int sign(char wanted, int at) {
        while (at < text.length() && text.charAt(at) != wanted) {
            if (text.startsWith("//", at)) at = text.indexOf('\n', at);
            else if (text.startsWith("/*", at)) at = text.indexOf("*/", at) + 2;
            else at++;
        }
        return at;
    }

    boolean isConstant(Tree it) { return it instanceof VariableTree && (((com.sun.tools.javac.tree.JCTree.JCVariableDecl) it).mods.flags & 16384) != 0; }
    boolean isComponent(Tree it) { return it instanceof VariableTree && (((com.sun.tools.javac.tree.JCTree.JCVariableDecl) it).mods.flags & (1L << 61)) != 0; }

    List<Object> members(ClassTree it) throws Exception {
        List<Tree> found = new ArrayList<>();
        for (Tree one : it.getMembers()) if (!isConstant(one) && !(it.getKind().name().equals("RECORD") && isComponent(one)) && last(one) > first(one)) found.add(one);
        return grouped(found, "Field");
    }

    List<Object> components(ClassTree it) throws Exception {
        List<Object> found = new ArrayList<>();
        for (Tree one : it.getMembers()) if (isComponent(one)) found.add(variable((VariableTree) one, "Parameter"));
        return found;
    }

    Node enumBody(ClassTree it) throws Exception {
        List<Object> constants = new ArrayList<>();
        for (Tree one : it.getMembers()) if (isConstant(one)) {
            VariableTree constant = (VariableTree) one;
            NewClassTree made = (NewClassTree) constant.getInitializer();
            constants.add(node("EnumConstant", one, modifiers(constant.getModifiers()), constant.getName(), made.getArguments(), made.getClassBody()));
        }
        int from = it.getImplementsClause().isEmpty() ? Math.max(first(it), last(it.getModifiers())) : last(it.getImplementsClause().get(it.getImplementsClause().size() - 1));
        return new Node("EnumBody", sign('{', from), last(it), constants, members(it));
    }

    Node method(MethodTree it) throws Exception {
        List<Object> parameters = new ArrayList<>();
        for (VariableTree one : it.getParameters()) parameters.add(variable(one, "Parameter"));
        Object mods = modifiers(it.getModifiers());
        if (!it.getName().contentEquals("<init>"))
            return node("Method", it, mods, it.getTypeParameters(), it.getReturnType(), it.getName(), parameters, it.getThrows(), it.getDefaultValue(), it.getBody());
        int at = ((com.sun.tools.javac.tree.JCTree) it).pos, end = at;
        while (end < text.length() && Character.isJavaIdentifierPart(text.charAt(end))) end++;
        String name = text.substring(at, end);
        boolean compact = (((com.sun.tools.javac.tree.JCTree.JCMethodDecl) it).mods.flags & (1L << 51)) != 0;
        return compact ? node("CompactConstructor", it, mods, name, it.getBody()) : node("Constructor", it, mods, it.getTypeParameters(), name, parameters, it.getThrows(), it.getBody());
    }

    /** A variable: of a kind of statement, or a parameter, which may have no type. */
    Node variable(VariableTree it, String kind) throws Exception {
        com.sun.tools.javac.tree.JCTree.JCVariableDecl made = (com.sun.tools.javac.tree.JCTree.JCVariableDecl) it;
        Object initializer = it.getInitializer();
        // what is implied has the place of the type
        boolean written = it.getType() == null || last(it.getModifiers()) <= first(it.getType()) || first(it.getType()) < 0;
        Object mods = written ? modifiers(it.getModifiers()) : null;
        boolean typed = it.getType() != null && first(it.getType()) >= 0 && last(it.getType()) > first(it.getType()) && !made.declaredUsingVar();
        String brackets = typed ? bracketsAfter(it) : "";
        if (!brackets.isEmpty() && kind.equals("Parameter")) return node("ArrayParameter", it, mods, typeBefore(it), it.getName(), brackets);
        if (!brackets.isEmpty()) return node(kind.equals("ForVariable") ? "ForVariables" : "Variables", it, mods, typeBefore(it), List.of(declarator(it)));
        if (kind.equals("Parameter")) {
            if (!typed) return text.substring(Math.max(0, first(it)), made.pos).strip().endsWith("var") ? node("Parameter", it, mods, new Node("Identifier", -1, -1, "var"), it.getName()) : node("ImplicitParameter", it, it.getName());
            if ((made.mods.flags & (1L << 34)) != 0) return node("VariadicParameter", it, mods, ((ArrayTypeTree) it.getType()).getType(), it.getName());
            return node("Parameter", it, mods, it.getType(), it.getName());
        }
        if (kind.equals("Resource")) return typed ? node(kind, it, mods, it.getType(), it.getName(), initializer) : node("InferredResource", it, mods, it.getName(), initializer);
        if (kind.equals("Field")) return node(kind, it, mods, it.getType(), it.getName(), initializer);
        return typed ? node(kind, it, mods, it.getType(), it.getName(), initializer) : node("Inferred" + kind, it, mods, it.getName(), initializer);
    }

    int place(VariableTree it) { return ((com.sun.tools.javac.tree.JCTree.JCVariableDecl) it).pos; }

    /** The type of a variable as it is written before the name: {@code int a[]} has brackets after that, too. */
    Tree typeBefore(VariableTree it) {
        Tree type = it.getType();
        while (type instanceof ArrayTypeTree && last(type) > place(it)) type = ((ArrayTypeTree) type).getType();
        return type;
    }

    String bracketsAfter(VariableTree it) {
        StringBuilder found = new StringBuilder();
        for (Tree type = it.getType(); type != typeBefore(it); type = ((ArrayTypeTree) type).getType()) found.append("[]");
        return found.toString();
    }

    Node declarator(VariableTree it) {
        String brackets = bracketsAfter(it);
        int end = brackets.isEmpty() ? place(it) + it.getName().length() : last(it.getType());
        return new Node("Declarator", place(it), it.getInitializer() != null ? last(it.getInitializer()) : end, it.getName(), brackets, it.getInitializer());
    }

    Node literal(LiteralTree it) {
        String like = text.substring(first(it), last(it));
        switch (it.getKind()) {
            case STRING_LITERAL: return like.startsWith("\"\"\"") ? node("OtherLiteral", it, like) : node("StringLiteral", it, it.getValue());
            case NULL_LITERAL: return node("NullLiteral", it);
            case INT_LITERAL: return node("IntLiteral", it, like);
            case CHAR_LITERAL: return node("CharLiteral", it, like);
            default: return node("OtherLiteral", it, like);
        }
    }

    Node invocation(MethodInvocationTree it) {
        if (it.getTypeArguments().isEmpty()) return node("MethodInvocation", it, it.getMethodSelect(), it.getArguments());
        MemberSelectTree select = (MemberSelectTree) it.getMethodSelect();
        return node("GenericInvocation", it, select.getExpression(), it.getTypeArguments(), select.getIdentifier(), it.getArguments());
    }

    /** The compiler gives the element type of {@code T[][]} no place of its own, so the brackets are one word. */
    Node arrayType(ArrayTypeTree it) throws Refused {
        Tree inner = it;
        StringBuilder brackets = new StringBuilder();
        while (inner instanceof ArrayTypeTree) { inner = ((ArrayTypeTree) inner).getType(); brackets.append("[]"); }
        if (inner instanceof AnnotatedTypeTree && first(inner) != first(it)) throw new Refused(first(it), "annotations of dimensions aren't read");
        return node("ArrayType", it, inner, brackets);
    }

    Node newArray(NewArrayTree it) {
        if (it.getInitializers() == null) {
            Tree inner = it.getType();
            StringBuilder brackets = new StringBuilder();
            while (inner instanceof ArrayTypeTree) { inner = ((ArrayTypeTree) inner).getType(); brackets.append("[]"); }
            return node("NewArray", it, inner, it.getDimensions(), brackets.toString());
        }
        if (it.getType() == null) return node("ArrayInitializer", it, it.getInitializers());
        Tree inner = it.getType();
        StringBuilder brackets = new StringBuilder("[]");
        while (inner instanceof ArrayTypeTree) { inner = ((ArrayTypeTree) inner).getType(); brackets.append("[]"); }
        return node("ArrayOf", it, inner, brackets.toString(), it.getInitializers());
    }

    Node branch(CaseTree it) throws Exception {
        boolean rule = it.getCaseKind() == CaseTree.CaseKind.RULE;
        List<?> labels = it.getExpressions();
        Object guard = null;
        try {
            guard = CaseTree.class.getMethod("getGuard").invoke(it);
            labels = (List<?>) CaseTree.class.getMethod("getLabels").invoke(it);
        } catch (NoSuchMethodException older) { /* there are only expressions */ }
        boolean other = labels.isEmpty() || labels.size() == 1 && ((Tree) labels.get(0)).getKind().name().equals("DEFAULT_CASE_LABEL");
        String kind = it.getBody() instanceof ExpressionTree ? "Value" : "Rule";
        if (guard != null) return rule ? node("Guarded" + kind, it, labels, guard, it.getBody()) : node("GuardedCase", it, labels, guard, statements(it.getStatements()));
        if (rule) return other ? node("Default" + kind, it, it.getBody()) : node("Case" + kind, it, labels, it.getBody());
        return other ? node("Default", it, statements(it.getStatements())) : node("Case", it, labels, statements(it.getStatements()));
    }

    Node annotation(AnnotationTree it) {
        List<Object> found = new ArrayList<>();
        for (ExpressionTree one : it.getArguments()) {
            // the compiler adds `value =` where there is none
            boolean added = one instanceof AssignmentTree && first(((AssignmentTree) one).getVariable()) < 0 || one instanceof AssignmentTree && first(one) == first(((AssignmentTree) one).getExpression());
            found.add(added ? ((AssignmentTree) one).getExpression() : one);
        }
        return node("Annotation", it, it.getAnnotationType(), found);
    }

    /** Annotations and flags in the order of the text. */
    Node modifiers(ModifiersTree it) {
        if (first(it) < 0 || last(it) <= first(it)) return null;
        TreeMap<Integer, Object> found = new TreeMap<>();
        int at = first(it);
        for (AnnotationTree one : it.getAnnotations()) found.put(first(one), one);
        while (at < last(it)) {
            Object there = found.get(at);
            if (there instanceof AnnotationTree) { at = last((AnnotationTree) there); continue; }
            if (text.startsWith("//", at)) { at = text.indexOf('\n', at); continue; }
            if (text.startsWith("/*", at)) { at = text.indexOf("*/", at) + 2; continue; }
            int end = at;
            while (end < last(it) && (Character.isLetter(text.charAt(end)) || text.charAt(end) == '-')) end++;
            if (end > at) { found.put(at, new Node("Flag", at, end, text.substring(at, end))); at = end; } else at++;
        }
        if (found.isEmpty()) return null;
        // the compiler counts the sign of an annotation's declaration among them
        Object end = found.lastEntry().getValue();
        return new Node("Modifiers", first(it), end instanceof Node ? ((Node) end).last : last((Tree) end), new ArrayList<>(found.values()));
    }

    List<Object> statements(Collection<?> all) throws Exception { return grouped(all, "Variable"); }

    List<Object> initializers(List<? extends StatementTree> all) throws Exception {
        List<Object> found = grouped(all, "ForVariable");
        for (int at = 0; at < found.size(); at++) if (found.get(at) instanceof ExpressionStatementTree) found.set(at, ((ExpressionStatementTree) found.get(at)).getExpression());
        return found;
    }

    /** {@code int a, b;} are two variables of one type for the compiler, which are one node here. */
    List<Object> grouped(Collection<?> all, String kind) throws Exception {
        List<Object> found = new ArrayList<>();
        List<VariableTree> run = new ArrayList<>();
        for (Object it : all) {
            boolean joins = it instanceof VariableTree && !run.isEmpty() && isTyped((VariableTree) it) && isTyped(run.get(0)) && first(((VariableTree) it).getType()) == first(run.get(0).getType());
            if (!joins) flush(run, found, kind);
            if (it instanceof VariableTree) run.add((VariableTree) it); else found.add(it);
        }
        flush(run, found, kind);
        return found;
    }

    boolean isTyped(VariableTree it) { return it.getType() != null && first(it.getType()) >= 0; }

    void flush(List<VariableTree> run, List<Object> found, String kind) throws Exception {
        if (run.size() == 1) found.add(variable(run.get(0), kind));
        else if (!run.isEmpty()) {
            List<Object> each = new ArrayList<>();
            VariableTree one = run.get(0);
            for (VariableTree it : run) each.add(declarator(it));
            String name = kind.equals("ForVariable") ? "ForVariables" : "Variables";
            found.add(new Node(name, first(one), last(run.get(run.size() - 1)), modifiers(one.getModifiers()), typeBefore(one), each));
        }
        run.clear();
    }

    // --- requests

    static String answer(String text, boolean places) {
        DiagnosticCollector<JavaFileObject> said = new DiagnosticCollector<>();
        JavaFileObject file = new SimpleJavaFileObject(URI.create("string:///A.java"), JavaFileObject.Kind.SOURCE) {
            @Override public CharSequence getCharContent(boolean ignored) { return text; }
        };
        Front it = new Front(text, places);
        try {
            JavacTask task = (JavacTask) COMPILER.getTask(null, MANAGER, said, List.of("-proc:none"), null, List.of(file));
            it.unit = task.parse().iterator().next();
            it.positions = Trees.instance(task).getSourcePositions();
            for (Diagnostic<?> one : said.getDiagnostics())
                if (one.getKind() == Diagnostic.Kind.ERROR) return no(it.bytes[(int) Math.max(0, Math.min(one.getPosition(), text.length()))], one.getMessage(Locale.ENGLISH));
            List<Object> types = new ArrayList<>(it.unit.getTypeDecls());
            it.write(new Node("CompilationUnit", 0, text.length(), it.unit.getPackage(), it.unit.getImports(), types), 1);
            return "ok " + it.terms + " " + it.deepest + " " + it.out.length() + "\n" + it.out + "\n";
        } catch (Refused error) {
            return no(it.bytes[Math.min(error.place, text.length())], error.getMessage());
        } catch (Exception | StackOverflowError error) {
            return no(0, error.toString());
        }
    }

    static String no(int place, String message) {
        message = message.lines().findFirst().orElse("?");
        return "no " + place + " " + message.getBytes(StandardCharsets.UTF_8).length + "\n" + message + "\n";
    }

    public static void main(String[] words) throws IOException {
        if (COMPILER == null) throw new IllegalStateException("Error: this Java has no compiler");
        for (String line : words[0].split(";")) {
            String[] parts = line.split(":", 2);
            FIELDS.put(parts[0], parts[1].isEmpty() ? List.of() : List.of(parts[1].split(",")));
        }
        DataInputStream in = new DataInputStream(new BufferedInputStream(System.in));
        PrintStream out = new PrintStream(new FileOutputStream(FileDescriptor.out), false, StandardCharsets.UTF_8);
        for (;;) {
            StringBuilder line = new StringBuilder();
            int one;
            while ((one = in.read()) >= 0 && one != '\n') line.append((char) one);
            if (one < 0) return;
            String[] request = line.toString().split(" ");
            byte[] source = new byte[Integer.parseInt(request[3])];
            in.readFully(source);
            out.print(answer(new String(source, StandardCharsets.UTF_8), request[2].equals("1")));
            out.flush();
        }
    }
}
