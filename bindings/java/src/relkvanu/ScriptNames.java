package relkvanu;

import java.util.Locale;

/** Names of constants as scripts print them. */
final class ScriptNames {
    private ScriptNames() {}

    /** NOT_RUNNING is NotRunning. */
    static String of(Enum<?> constant) {
        StringBuilder text = new StringBuilder();
        for (String word : constant.name().split("_")) {
            text.append(word.charAt(0)).append(word.substring(1).toLowerCase(Locale.ROOT));
        }
        return text.toString();
    }
}
