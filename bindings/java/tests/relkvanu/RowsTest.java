package relkvanu;

import static org.junit.jupiter.api.Assertions.assertEquals;
import static org.junit.jupiter.api.Assertions.assertTrue;

import java.io.IOException;
import java.nio.file.Files;
import java.nio.file.Path;
import java.util.ArrayList;
import java.util.List;
import java.util.Map;
import java.util.Optional;
import java.util.TreeMap;
import java.util.TreeSet;
import java.util.function.BiFunction;
import java.util.stream.Stream;
import org.junit.jupiter.api.DynamicTest;
import org.junit.jupiter.api.Test;
import org.junit.jupiter.api.TestFactory;

/**
 * The rows of examples/rows that are lists of calls, and logs with names, with reads and of docs/LOGS.md, print what they should: by lines, by the
 * methods, and by lines that are written again.
 */
class RowsTest {
    private static final Path FOLDER = Path.of(System.getProperty("rows"));
    private static final Path PAGE = Path.of(System.getProperty("logs"));
    private static final Map<String, BiFunction<Coordinator, byte[], Optional<Reply>>> WAYS =
        Map.of("lines", Coordinator::line, "methods", Words::byMethod, "lines that are written again", Words::writtenAgain);

    private static List<Path> files(Path folder, String ending) throws IOException {
        try (Stream<Path> found = Files.list(folder)) {
            return found.filter(it -> it.toString().endsWith(ending)).sorted().toList();
        }
    }

    private static String name(Path row) {
        return row.getFileName().toString().replaceFirst("\\.in$", "");
    }

    private static boolean isListOfCalls(Path row) {
        Optional<Coordinator> job = Script.of(row).opened();
        job.ifPresent(Coordinator::close);
        return job.isPresent();
    }

    @Test
    void whichAreListsOfCalls() throws IOException {
        List<String> others = Files.readAllLines(FOLDER.resolve("OTHERS"));
        List<Path> rows = files(FOLDER, ".in");
        List<String> found = rows.stream().filter(it -> !isListOfCalls(it)).map(RowsTest::name).toList();
        assertEquals(new TreeSet<>(others), new TreeSet<>(found));
        assertTrue(found.size() < rows.size());
    }

    /** A test of each of these in each way. */
    private static <T> Stream<DynamicTest> each(Map<String, T> all, Made<T> makes) {
        return all.entrySet().stream().flatMap(it -> WAYS.entrySet().stream().map(way ->
            DynamicTest.dynamicTest(it.getKey() + " by " + way.getKey(), () -> makes.by(it.getValue(), way.getValue()))));
    }

    /** Makes the calls of a row or a log in a way, and compares what each prints. */
    private interface Made<T> {
        void by(T what, BiFunction<Coordinator, byte[], Optional<Reply>> way) throws IOException;
    }

    @TestFactory
    Stream<DynamicTest> eachRow() throws IOException {
        Map<String, Path> rows = new TreeMap<>();
        files(FOLDER, ".in").stream().filter(RowsTest::isListOfCalls).forEach(row -> rows.put(name(row), row));
        return each(rows, RowsTest::makesRow);
    }

    private static void makesRow(Path row, BiFunction<Coordinator, byte[], Optional<Reply>> make) throws IOException {
        Script script = Script.of(row);
        try (Coordinator job = script.opened().orElseThrow()) {
            job.setMostAhead(Long.MAX_VALUE);
            assertEquals(Files.readAllLines(FOLDER.resolve(name(row) + ".out")), script.printed(line -> make.apply(job, line)));
        }
    }

    /** Those of names, and of reads, and the example of the page. */
    @TestFactory
    Stream<DynamicTest> eachLog() throws IOException {
        Map<String, String> logs = new TreeMap<>();
        logs.put("the page", Files.readString(PAGE).split("\n## 5\\. An example\n")[1].split("\n```\n")[1]);
        assertEquals(19, answers(logs.get("the page"), new ArrayList<>()).size());
        for (String folder : List.of("logs", "reads")) {
            for (Path log : files(FOLDER.resolveSibling(folder), "")) {
                logs.put(log.getFileName().toString(), Files.readString(log));
            }
        }
        assertTrue(logs.size() >= 15, logs.keySet().toString());
        return each(logs, RowsTest::makesLog);
    }

    /** The lines of a log, with the answers beside each and below it. */
    private static Map<Integer, List<String>> answers(String log, List<byte[]> lines) {
        Map<Integer, List<String>> answers = new TreeMap<>();
        for (String it : log.split("\n")) {
            String[] halves = it.split("-> ", 2);
            if (!halves[0].isBlank()) {
                answers.put(lines.size(), new ArrayList<>());
                lines.add(Jobs.line(halves[0].stripTrailing()));
            }
            if (halves.length > 1) {
                // a log has other words than the package for a call that needs names, or that there are none
                answers.get(lines.size() - 1).add(halves[1].replaceFirst("^refused (NoNames|HasNames|NameInUse)$", "fenced $1"));
            }
        }
        return answers;
    }

    /** A line with two answers began a term. */
    private static void makesLog(String log, BiFunction<Coordinator, byte[], Optional<Reply>> make) {
        List<byte[]> lines = new ArrayList<>();
        Map<Integer, List<String>> answers = answers(log, lines);
        Script script = new Script(lines);
        try (Coordinator job = script.opened().orElseThrow()) {
            answers.forEach((place, told) -> {
                String line = Lines.text(lines.get(place));
                List<String> printed = new ArrayList<>();
                if (line.startsWith("? ")) {
                    printed.add(Words.read(job, line));
                } else {
                    script.printed(it -> make.apply(job, it), place).ifPresent(printed::add);
                }
                if (told.size() == 2) {
                    printed.add("term " + job.term().term());
                }
                assertEquals(told, printed, line);
            });
        }
    }
}
