package relay.client;

import static relay.client.Tests.equal;
import static relay.client.Tests.fails;
import static relay.client.ValuesTest.json;
import static relay.client.ValuesTest.patch;

import com.fasterxml.jackson.databind.JsonNode;
import java.util.ArrayList;
import java.util.List;
import java.util.Optional;

/** Tests of what slots tell of patches that are laid over them, and of what takes them back. */
final class KnownTest {
    private KnownTest() {}

    private static List<Shown> view(String text) {
        List<Shown> view = new ArrayList<>();
        for (JsonNode one : json(text)) view.add(Shown.of(one));
        return view;
    }

    /** The view, its slots, a patch, and the slots with the patch laid over them. */
    private static final String[][] LAID_OVER = {
        {"['/a']", "[[['b']]]", "[{'op':'add','path':'/a/-','value':'c'}]", "[[['b','c']]]"},
        {"['/cards',{'size':'/cards'}]", "[[['a']],[1]]",
            "[{'op':'add','path':'/cards/0','value':'b'}]", "[[['b','a']],[2]]"},
        {"['/a/0','/a']", "[[1],[[1,2]]]", "[{'op':'remove','path':'/a/0'}]", "[[2],[[2]]]"},
        // What stands behind an element that comes or goes is not known.
        {"['/a/0','/a/2']", "[[1],[3]]", "[{'op':'add','path':'/a/1','value':7}]", "[[1],[3]]"},
        {"['/a/0']", "[[1]]", "[{'op':'remove','path':'/a/0'}]", "[[1]]"},
        {"['/a/b']", "[[1]]", "[{'op':'remove','path':'/a/b'}]", "[[]]"},
        // What stands around it tells a slot.
        {"['/a/b/c']", "[[1]]", "[{'op':'replace','path':'/a','value':{'b':{'c':2}}}]", "[[2]]"},
        {"['/a/b/c']", "[[1]]", "[{'op':'add','path':'/a','value':7}]", "[[]]"},
        // A value from elsewhere is not known, nor what it is put into.
        {"['/a']", "[[[1]]]", "[{'op':'copy','from':'/n','path':'/a/0'}]", "[[[1]]]"},
        {"['/a','/b']", "[[1],[2]]", "[{'op':'move','from':'/a','path':'/b'}]", "[[],[1]]"},
        {"['/a']", "[[{'n':1,'m':[2]}]]",
            "[{'op':'test','path':'/a','value':{'m':[2],'n':1}},{'op':'remove','path':'/a/m'}]",
            "[[{'n':1}]]"},
    };

    static void patchesAreLaidOverSlots() {
        for (String[] row : LAID_OVER) {
            List<Shown> view = view(row[0]);
            List<Optional<JsonNode>> slots = Change.slots(json(row[1]));
            List<Optional<JsonNode>> after =
                    Known.by(view, slots).after(patch(row[2])).slots(view, slots);
            equal(Change.slots(json(row[3])), after);
        }
    }

    static void whatIsRefusedIsKnown() {
        Known known = Known.by(view("['/a','/b']"), Change.slots(json("[[[1]],[]]")));
        for (String wrong : List.of(
                "[{'op':'remove','path':'/a/1'}]",
                "[{'op':'replace','path':'/b','value':1}]",
                "[{'op':'add','path':'/b/c','value':1}]",
                "[{'op':'test','path':'/a/0','value':true}]",
                "[{'op':'move','from':'/a','path':'/a/0'}]",
                "[{'op':'add','path':'/a/0'}]",
                "[{'op':'run','path':'/a/0'}]")) {
            fails(Misfit.class, () -> known.after(patch(wrong)));
        }
    }

    /** Slots of the whole document, and patches that can be taken back. */
    private static final String[][] UNDONE = {
        {"{'a':[1,2,3]}", "[{'op':'remove','path':'/a/1'}]"},
        {"{'a':[1]}", "[{'op':'remove','path':'/a/0'},{'op':'add','path':'/a/-','value':7}]"},
        {"{'a':[1,2,3]}", "[{'op':'move','from':'/a/0','path':'/a/2'}]"},
        {"{'a':[1,2,3],'b':{}}", "[{'op':'move','from':'/a/0','path':'/b/c'}]"},
        {"{'a':{'b':1}}", "[{'op':'replace','path':'/a/b','value':2}]"},
        {"{'a':{'b':1}}", "[{'op':'add','path':'/a/b','value':2},{'op':'remove','path':'/a'}]"},
        {"{'a':[[]]}", "[{'op':'copy','from':'/a/0','path':'/a/0/-'}]"},
        {"{'a':1}", "[{'op':'add','path':'','value':[1]}]"},
        {"{'a':1}",
            "[{'op':'add','path':'/a~1b','value':[1]},{'op':'test','path':'/a','value':1}]"},
    };

    static void whatWasDoneIsTakenBack() {
        for (String[] row : UNDONE) {
            List<Shown> whole = List.of(Shown.value(""));
            List<Optional<JsonNode>> slots = List.of(Optional.of(json(row[0])));
            Known before = Known.by(whole, slots);
            Known after = before.after(patch(row[1]));
            Known back = after.after(Inverse.of(before, patch(row[1])));
            equal(slots, back.slots(whole, slots));
            // Somebody else changed what it did.
            Known other = Known.by(whole, List.of(Optional.of(json("{'a':'other'}"))));
            equal(false, Inverse.fits(other, Inverse.of(before, patch(row[1]))));
        }
    }

    static void whatTheSlotsDoNotTellIsNotTakenBack() {
        Known known = Known.by(view("['/a']"), Change.slots(json("[[1]]")));
        for (String one : List.of(
                "[{'op':'remove','path':'/b'}]",
                "[{'op':'copy','from':'/b','path':'/a'}]",
                "[{'op':'add','path':'/b/0','value':1}]",
                "[{'op':'test','path':'/a','value':1}]",
                "[]")) {
            equal(null, Inverse.of(known, patch(one)));
        }
    }

    /** A patch and whether it surely touches `/a/b`. */
    static void whatSurelyTouchesASlot() {
        String[][] rows = {
            {"[{'op':'replace','path':'/a/b/c','value':1}]", "true"},
            {"[{'op':'remove','path':'/a/b'}]", "true"},
            {"[{'op':'copy','from':'/x','path':'/a/b/-'}]", "true"},
            {"[{'op':'move','from':'/a/b/0','path':'/x'}]", "true"},
            {"[{'op':'move','from':'/a/b/0','path':'/a/b/1'}]", "true"},
            {"[{'op':'move','from':'/a/b/0','path':'/a/b/-'}]", "false"},
            {"[{'op':'move','from':'/a/b','path':'/a/b'}]", "false"},
            {"[{'op':'test','path':'/a/b','value':1}]", "false"},
            {"[{'op':'replace','path':'/a','value':1}]", "false"},
            {"[{'op':'replace','path':'/x','value':1}]", "false"},
        };
        for (String[] row : rows) {
            List<Shown> view = List.of(Shown.value("/a/b"));
            equal(Boolean.valueOf(row[1]), Overlay.touches(patch(row[0]), view));
        }
    }
}
