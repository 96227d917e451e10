package relay.client;

import static java.nio.charset.StandardCharsets.UTF_8;

import java.net.URI;
import java.net.URISyntaxException;
import java.util.Base64;
import java.util.Optional;
import java.util.regex.Pattern;

/** The address of a room: as it may be shown, and the name and the password in it. */
final class Address {
    /**
     * The part before the host: a name and a password, or a token. A password that is not escaped
     * may have a slash, so it ends at the last {@code @}.
     */
    private static final Pattern USER =
            Pattern.compile("(?s)^([\\w+.-]+:)?([/\\\\]*)([^:]*:)?.*@");

    private Address() {}

    /** Reads an address. An exception of {@link URI} would have the password in it. */
    static URI of(String address) {
        try {
            URI read = new URI(address);
            if (read.getHost() != null) return read;
        } catch (URISyntaxException failure) {
            // As an address without a host.
        }
        throw new IllegalArgumentException(shown(address) + " is not ws://HOST/rooms/NAME");
    }

    /** The address with {@code ***} in place of a password, or of a name that has none. */
    static String shown(Object address) {
        return USER.matcher(address.toString()).replaceFirst("$1$2$3***@");
    }

    /** The {@code Authorization} of a request, if the address has a name. */
    static Optional<String> authorization(URI address) {
        return Optional.ofNullable(address.getUserInfo())
                .map(user -> Base64.getEncoder().encodeToString(user.getBytes(UTF_8)))
                .map(encoded -> "Basic " + encoded);
    }
}
