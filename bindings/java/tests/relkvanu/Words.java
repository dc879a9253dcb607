package relkvanu;

import java.lang.reflect.InvocationTargetException;
import java.lang.reflect.Method;
import java.nio.charset.StandardCharsets;
import java.util.ArrayList;
import java.util.Arrays;
import java.util.List;
import java.util.Locale;
import java.util.Optional;
import java.util.OptionalLong;
import java.util.stream.Collectors;
import java.util.stream.Stream;

/** The words of a line that makes a call, read here: makes the call by its method, or writes it again; and those of a read. */
final class Words {
    private final String name; // of the method
    private final List<String> given;

    private Words(String name, List<String> given) {
        this.name = name;
        this.given = given;
    }

    /** The words, if the line makes a call. Throws its fault. */
    private static Optional<Words> of(byte[] line) {
        String text = new String(line, StandardCharsets.ISO_8859_1).replaceFirst("\r$", "").replaceFirst("^ +", "");
        return Lines.says(line) instanceof Line.Call ? Optional.of(of(List.of(text.split("[ .]+")))) : Optional.empty();
    }

    /** A call of a term has a method of its own, or is made without it. */
    private static Words of(List<String> words) {
        List<String> given = words.subList(1, words.size());
        return switch (words.get(0)) {
            case "in" -> {
                Words call = of(given.subList(1, given.size()));
                boolean isOfTask = call.name.equals("ack") || call.name.equals("decline");
                yield isOfTask ? new Words(call.name + "In", Stream.concat(given.stream().limit(1), call.given.stream()).toList()) : call;
            }
            case "restore" -> given.get(1).equals("latest")
                ? new Words("restoreLatest", given.stream().filter(it -> !it.equals("latest")).toList()) : new Words("restoreSavepoint", given);
            default -> new Words(words.get(0), given);
        };
    }

    static Optional<Reply> byMethod(Coordinator job, byte[] line) {
        return of(line).map(it -> (Reply) it.called(Coordinator.class, job));
    }

    /** A line that begins with in and has no use for that, and an advance, have no function that writes them. */
    static Optional<Reply> writtenAgain(Coordinator job, byte[] line) {
        return of(line).flatMap(it -> {
            boolean isWritten = !it.name.equals("advance") && (it.name.endsWith("In") || !Lines.text(line).startsWith("in "));
            return job.line(isWritten ? Jobs.line((String) it.called(Lines.class, null)) : line);
        });
    }

    /** Calls the method of this name: that with a list, if there are more words than the other one has numbers. */
    private Object called(Class<?> owner, Object on) {
        Method method = Arrays.stream(owner.getMethods()).filter(it -> it.getName().equals(name))
            .filter(it -> !name.startsWith("restore") || it.getParameterCount() == Math.min(given.size(), name.equals("restoreLatest") ? 2 : 3)).findAny().orElseThrow();
        try {
            return method.invoke(on, arguments(method.getParameterTypes()));
        } catch (InvocationTargetException fault) {
            throw (CoordinatorException) fault.getCause();
        } catch (ReflectiveOperationException fault) {
            throw new AssertionError(name, fault);
        }
    }

    /** A word for each number; and for each list those with its sign, and those without any. */
    private Object[] arguments(Class<?>[] types) {
        List<Object> found = new ArrayList<>();
        int numbers = 0;
        int lists = 0;
        for (Class<?> type : types) {
            if (type == long[].class) {
                found.add(list(numbers, lists++ == 0 ? "[+]" : "="));
            } else {
                long number = FileNumbers.parse(given.get(numbers++));
                int small = Long.compareUnsigned(number, Integer.MAX_VALUE) < 0 ? (int) number : Integer.MAX_VALUE;
                found.add(type == int.class ? (Object) small : (Object) number);
            }
        }
        return found.toArray();
    }

    private long[] list(int from, String sign) {
        return given.stream().skip(from).filter(it -> it.matches(sign + "?[0-9]+")).mapToLong(it -> FileNumbers.parse(it.replaceFirst(sign, ""))).toArray();
    }

    /** What a line that begins with ? tells: a read with its numbers. */
    static String read(Coordinator job, String line) {
        List<String> words = List.of(line.substring(2).split(" +"));
        try {
            return switch (words.get(0)) {
                case "live" -> orNone(Jobs.records(job).stream().map(Words::text).collect(Collectors.joining(" ")));
                case "choice" -> job.choice().map(it -> text(it.kind()) + " " + it.id()).orElse("fresh");
                case "file_counts" -> job.fileCounts().inUse() + " " + job.fileCounts().waiting() + " " + job.fileCounts().taken();
                case "term" -> job.term().term() + " " + job.term().nextName();
                default -> text(new Words(camel(words.get(0)), words.subList(1, words.size())).called(Reads.class, job));
            };
        } catch (CoordinatorException.Fenced fault) {
            return "fenced " + fault.getMessage();
        }
    }

    /** live_from is liveFrom. */
    private static String camel(String word) {
        String[] parts = word.split("_");
        return parts[0] + Arrays.stream(parts).skip(1).map(it -> it.substring(0, 1).toUpperCase(Locale.ROOT) + it.substring(1)).collect(Collectors.joining());
    }

    /** What a read tells. */
    private static String text(Object told) {
        if (told instanceof Enum<?> it) {
            return it.name().toLowerCase(Locale.ROOT).replace('_', ' ');
        } else if (told instanceof OptionalLong it) {
            return it.isPresent() ? FileNumbers.toString(it.getAsLong()) : "none";
        } else if (told instanceof Optional<?> it) {
            return it.map(Words::text).orElse("none");
        } else if (told instanceof Live it) {
            return text(it.kind()) + " " + it.id() + (it.isDone() ? " done" : " pending");
        } else if (told instanceof Garbage it) {
            return "garbage " + text(it.garbage()) + " unissued " + text(it.unissued());
        } else if (told instanceof long[] it) {
            return orNone(Arrays.stream(it).mapToObj(FileNumbers::toString).collect(Collectors.joining(" ")));
        }
        return told.toString();
    }

    private static String orNone(String text) {
        return text.isEmpty() ? "none" : text;
    }
}
