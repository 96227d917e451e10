package relay.client;

import java.util.ArrayList;
import java.util.List;
import java.util.regex.Pattern;

/** JSON Pointers (RFC 6901), as texts and as lists of tokens. */
public final class Pointer {
    private static final Pattern FORM = Pattern.compile("(?s)(?:/(?:[^~/]|~[01])*+)*+");
    private static final Pattern INDEX = Pattern.compile("0|[1-9][0-9]*");
    /** No list is as long, and no longer index has to be told from it. */
    private static final int MOST_DIGITS = 9;

    private Pointer() {}

    /** The pointer of these tokens, as {@code of("cards", 0)} is {@code /cards/0}. */
    public static String of(Object... tokens) {
        StringBuilder text = new StringBuilder();
        for (Object token : tokens) {
            text.append('/').append(token.toString().replace("~", "~0").replace("/", "~1"));
        }
        return text.toString();
    }

    /**
     * The tokens of a pointer.
     *
     * @throws IllegalArgumentException if the text is none
     */
    public static List<String> tokens(String pointer) {
        if (!FORM.matcher(pointer).matches()) {
            throw new IllegalArgumentException("\"" + pointer + "\" is no JSON Pointer");
        }
        List<String> tokens = new ArrayList<>();
        for (String token : pointer.split("/", -1)) {
            tokens.add(token.replace("~1", "/").replace("~0", "~"));
        }
        return List.copyOf(tokens.subList(1, tokens.size()));
    }

    /** The place in a list that a token names; past the end of each for a large one, or -1. */
    static int index(String token) {
        if (!INDEX.matcher(token).matches()) return -1;
        return token.length() > MOST_DIGITS ? Integer.MAX_VALUE : Integer.parseInt(token);
    }

    static boolean startsWith(List<String> path, List<String> start) {
        return start.size() <= path.size() && path.subList(0, start.size()).equals(start);
    }
}
