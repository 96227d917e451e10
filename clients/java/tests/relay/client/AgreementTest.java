package relay.client;

import static relay.client.Tests.equal;
import static relay.client.ValuesTest.json;

import com.fasterxml.jackson.databind.JsonNode;
import java.util.ArrayList;
import java.util.List;
import java.util.Optional;
import java.util.Random;

/**
 * One that watches the whole document knows what each patch leads to. What one knows that watches
 * parts of it is the same.
 */
final class AgreementTest {
    private static final String DOCUMENT =
            "{'a':[1,[2,3],{'x':[4]}],'b':{'0':5,'x':{'y':[6]},'-':7},'n':8}";
    private static final List<String> POINTERS = List.of(
            "", "/a", "/a/0", "/a/1", "/a/2", "/a/2/x", "/a/3", "/a/-", "/b", "/b/0", "/b/x",
            "/b/x/y", "/b/x/y/0", "/b/x/y/-", "/b/-", "/n", "/none", "/a/1/0", "/a/1/-", "/none/x");
    private static final List<String> VALUES =
            List.of("null", "1", "[]", "{'x':[9]}", "[2,3]", "{}");

    private AgreementTest() {}

    private static <T> T any(List<T> all, Random chance) {
        return all.get(chance.nextInt(all.size()));
    }

    private static Patch patch(Random chance) {
        Patch patch = Patch.of();
        for (int left = 1 + chance.nextInt(4); left > 0; left--) {
            JsonNode value = json(any(VALUES, chance));
            String path = any(POINTERS, chance);
            String from = any(POINTERS, chance);
            patch = switch (chance.nextInt(6)) {
                case 0 -> patch.add(path, value);
                case 1 -> patch.remove(path);
                case 2 -> patch.replace(path, value);
                case 3 -> patch.move(from, path);
                case 4 -> patch.copy(from, path);
                default -> patch.test(path, value);
            };
        }
        return patch;
    }

    private static List<Shown> view(Random chance) {
        List<Shown> view = new ArrayList<>();
        for (int left = 1 + chance.nextInt(4); left > 0; left--) {
            view.add(new Shown(any(POINTERS, chance), chance.nextInt(4) == 0));
        }
        return view;
    }

    private static Known after(Known known, Patch patch) {
        try {
            return known.after(patch);
        } catch (Misfit refused) {
            return null;
        }
    }

    static void whatPartsOfADocumentTellIsRight() {
        int[] counts = new int[3]; // slots that are known, patches that are refused, and undone
        for (int seed = 0; seed < 20_000; seed++) compare(new Random(seed), counts);
        equal(true, counts[0] > 5000 && counts[1] > 5000 && counts[2] > 500);
    }

    private static void compare(Random chance, int[] counts) {
        List<Optional<JsonNode>> document = List.of(Optional.of(json(DOCUMENT)));
        Known whole = Known.by(List.of(Shown.value("")), document);
        List<Shown> view = view(chance);
        List<Optional<JsonNode>> none = new ArrayList<>();
        view.forEach(shown -> none.add(Optional.empty()));
        Known parts = Known.by(view, whole.slots(view, none));
        Patch patch = patch(chance);
        Known wholeAfter = after(whole, patch);
        Known partsAfter = after(parts, patch);
        if (wholeAfter == null) {
            counts[1]++;
            return;
        }
        if (partsAfter == null) throw new AssertionError(patch + " is not refused");
        for (Shown shown : view) {
            JsonNode value = partsAfter.at(shown.path());
            if (value == null) continue;
            counts[0]++;
            equal(wholeAfter.at(shown.path()), value);
        }
        Patch back = Inverse.of(parts, patch);
        if (back == null) return;
        counts[2]++;
        equal(json(DOCUMENT), wholeAfter.after(back).value(List.of()));
    }
}
