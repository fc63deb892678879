// Answers selections by Jaxen or by Saxon. Needs jaxen.jar and Saxon-HE.jar.
//
//     java -cp /usr/share/java/jaxen.jar:/usr/share/java/Saxon-HE.jar Engines.java jaxen|saxon < QUESTIONS
//
// A question is a line: "document XML", or "select CONTEXT XPATH" on the last document. The answer to a document is its
// rows "kind parent name" in document order, all on one line; to a selection, the numbers of the selected nodes, or
// "refused": Saxon refuses an expression if it sees that a part of it is never evaluated, Jaxen some that it doesn't take
// for node sets. "names NAME NAME .." gives the
// names of later documents their numbers from 1, the first of two equal ones counting; it is answered by an empty line.
// "parses XPATH" is answered by "yes" or "no": whether Jaxen takes it for an expression of XPath 1.0.

import java.io.*;
import java.util.*;
import javax.xml.parsers.DocumentBuilderFactory;
import javax.xml.transform.stream.StreamSource;
import net.sf.saxon.lib.Feature;
import net.sf.saxon.om.TreeModel;
import net.sf.saxon.s9api.*;
import org.jaxen.dom.DOMXPath;
import org.w3c.dom.Node;
import org.xml.sax.InputSource;

public class Engines {
    interface Engine {
        /** Reads a document and lists its rows. */
        List<String> document(String xml) throws Exception;

        /** The numbers of the nodes that the expression selects, or null if it is refused. */
        TreeSet<Integer> select(int context, String xpath) throws Exception;
    }

    static List<String> names = null;

    /** A name's number is what follows its first letter, or its place among the names; an instruction of target i has
        none, 0. */
    static String row(int kind, int parent, String name) {
        boolean named = kind == 1 || kind == 5 || kind == 4 && !name.equals("i");
        String number = !named ? "0" : names == null ? name.substring(1) : "" + (names.indexOf(name) + 1);
        return kind + " " + parent + " " + number;
    }

    static boolean parses(String xpath) {
        try {
            new DOMXPath(xpath);
            return true;
        } catch (org.jaxen.JaxenException e) {
            return false;
        }
    }

    static class Jaxen implements Engine {
        List<Node> nodes;
        Map<Node, Integer> numbers;

        public List<String> document(String xml) throws Exception {
            nodes = new ArrayList<>();
            numbers = new IdentityHashMap<>();
            List<String> rows = new ArrayList<>();
            var builder = DocumentBuilderFactory.newInstance().newDocumentBuilder();
            add(builder.parse(new InputSource(new StringReader(xml))), 0, rows);
            return rows;
        }

        void add(Node node, int parent, List<String> rows) {
            int kind = switch (node.getNodeType()) {
                case Node.DOCUMENT_NODE -> 0;
                case Node.ELEMENT_NODE -> 1;
                case Node.TEXT_NODE -> 2;
                case Node.COMMENT_NODE -> 3;
                case Node.PROCESSING_INSTRUCTION_NODE -> 4;
                default -> throw new IllegalStateException("node type " + node.getNodeType());
            };
            int number = nodes.size();
            nodes.add(node);
            numbers.put(node, number);
            rows.add(row(kind, parent, node.getNodeName()));
            for (Node child = node.getFirstChild(); child != null; child = child.getNextSibling()) {
                add(child, number, rows);
            }
        }

        public TreeSet<Integer> select(int context, String xpath) throws Exception {
            TreeSet<Integer> selected = new TreeSet<>();
            try {
                for (Object node : new DOMXPath(xpath).selectNodes(nodes.get(context))) {
                    selected.add(numbers.get(node));
                }
            } catch (org.jaxen.JaxenException e) {
                return null;
            }
            return selected;
        }
    }

    static class Saxon implements Engine {
        Processor processor = new Processor(false);
        XPathCompiler compiler;
        List<XdmNode> nodes;
        Map<XdmNode, Integer> numbers;

        Saxon() {
            processor.setConfigurationProperty(Feature.OPTIMIZATION_LEVEL, "0");
            compiler = processor.newXPathCompiler();
        }

        public List<String> document(String xml) throws Exception {
            nodes = new ArrayList<>();
            numbers = new HashMap<>();
            List<String> rows = new ArrayList<>();
            var builder = processor.newDocumentBuilder();
            builder.setTreeModel(TreeModel.LINKED_TREE);
            add(builder.build(new StreamSource(new StringReader(xml))), 0, rows);
            return rows;
        }

        void add(XdmNode node, int parent, List<String> rows) {
            int kind = switch (node.getNodeKind()) {
                case DOCUMENT -> 0;
                case ELEMENT -> 1;
                case TEXT -> 2;
                case COMMENT -> 3;
                case PROCESSING_INSTRUCTION -> 4;
                case ATTRIBUTE -> 5;
                default -> throw new IllegalStateException("node kind " + node.getNodeKind());
            };
            int number = nodes.size();
            nodes.add(node);
            numbers.put(node, number);
            rows.add(row(kind, parent, kind == 1 || kind == 4 || kind == 5 ? node.getNodeName().getLocalName() : ""));
            if (kind == 1) {
                for (XdmSequenceIterator<XdmNode> attributes = node.axisIterator(Axis.ATTRIBUTE); attributes.hasNext();) {
                    add(attributes.next(), number, rows);
                }
            }
            for (XdmNode child : node.children()) {
                add(child, number, rows);
            }
        }

        public TreeSet<Integer> select(int context, String xpath) throws Exception {
            TreeSet<Integer> selected = new TreeSet<>();
            try {
                for (XdmItem item : compiler.evaluate(xpath, nodes.get(context))) {
                    selected.add(numbers.get((XdmNode) item));
                }
            } catch (SaxonApiException | SaxonApiUncheckedException e) {
                if (!e.getMessage().contains("the context item is absent")) {
                    throw e;
                }
                return null;
            }
            return selected;
        }
    }

    public static void main(String[] args) throws Exception {
        Engine engine = args[0].equals("saxon") ? new Saxon() : new Jaxen();
        var questions = new BufferedReader(new InputStreamReader(System.in));
        var answers = new PrintWriter(new BufferedWriter(new OutputStreamWriter(System.out)));
        for (String line = questions.readLine(); line != null; line = questions.readLine()) {
            if (line.startsWith("document ")) {
                answers.println(String.join(" ", engine.document(line.substring(9))));
            } else if (line.startsWith("names ")) {
                names = Arrays.asList(line.substring(6).split(" "));
                answers.println();
            } else if (line.startsWith("parses ")) {
                answers.println(parses(line.substring(7)) ? "yes" : "no");
            } else {
                String[] words = line.split(" ", 3);
                TreeSet<Integer> selected = engine.select(Integer.parseInt(words[1]), words[2]);
                StringJoiner numbers = new StringJoiner(" ");
                if (selected != null) selected.forEach(n -> numbers.add(n.toString()));
                answers.println(selected == null ? "refused" : numbers);
            }
        }
        answers.flush();
    }
}
