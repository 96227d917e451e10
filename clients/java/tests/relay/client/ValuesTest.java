package relay.client;

import static relay.client.Tests.equal;
import static relay.client.Tests.fails;

import com.fasterxml.jackson.core.JsonProcessingException;
import com.fasterxml.jackson.databind.JsonNode;
import java.util.List;
import java.util.Map;

/** Pointers, numbers and patches. */
final class ValuesTest {
    private ValuesTest() {}

    static JsonNode json(String text) {
        try {
            return Json.read(text.replace('\'', '"'));
        } catch (JsonProcessingException wrong) {
            throw new IllegalArgumentException(wrong);
        }
    }

    static Patch patch(String text) {
        return Patch.read(json(text));
    }

    /** RFC 6901, section 5, and what is no pointer. */
    static void pointers() {
        equal(List.of(), Pointer.tokens(""));
        equal(List.of("foo", "0"), Pointer.tokens("/foo/0"));
        equal(List.of(""), Pointer.tokens("/"));
        equal(List.of("a/b"), Pointer.tokens("/a~1b"));
        equal(List.of("m~n"), Pointer.tokens("/m~0n"));
        equal(List.of("~1"), Pointer.tokens("/~01"));
        equal("/cards/0/a~1b/m~0n", Pointer.of("cards", 0, "a/b", "m~n"));
        for (String wrong : List.of("a", "/~", "/~2", "/a~")) {
            fails(IllegalArgumentException.class, () -> Pointer.tokens(wrong));
        }
    }

    /** Jackson has three classes for them, by how many digits they have. */
    static void numbersAreEqualWhateverTheirDigits() {
        equal(json("[1,9223372036854775807,-9223372036854775808]"),
                Json.of(List.of((short) 1, Long.MAX_VALUE, Long.MIN_VALUE)));
        equal(true, json("9223372036854775807").isLong());
        for (Object wrong : List.of(1.5, 1e3, "\ud800", new byte[1], Map.of("\udc00", 1))) {
            fails(IllegalArgumentException.class, () -> Json.of(wrong));
        }
        fails(IllegalArgumentException.class, () -> Json.of(json("9223372036854775808")));
    }

    static void aTextIsOneValue() {
        for (String wrong : List.of("{", "1 2", "{'a':1}}", "watching")) {
            fails(IllegalArgumentException.class, () -> json(wrong));
        }
    }

    /** RFC 6902, appendix A: the document, the patch, and the document after it. */
    static void theExamplesOfTheRfc() {
        String[][] rows = {
            {"{'foo':'bar'}", "[{'op':'add','path':'/baz','value':'qux'}]",
                "{'baz':'qux','foo':'bar'}"},
            {"{'foo':['bar','baz']}", "[{'op':'add','path':'/foo/1','value':'qux'}]",
                "{'foo':['bar','qux','baz']}"},
            {"{'baz':'qux','foo':'bar'}", "[{'op':'remove','path':'/baz'}]", "{'foo':'bar'}"},
            {"{'foo':['bar','qux','baz']}", "[{'op':'remove','path':'/foo/1'}]",
                "{'foo':['bar','baz']}"},
            {"{'baz':'qux','foo':'bar'}", "[{'op':'replace','path':'/baz','value':'boo'}]",
                "{'baz':'boo','foo':'bar'}"},
            {"{'foo':{'bar':'baz','waldo':'fred'},'qux':{'corge':'grault'}}",
                "[{'op':'move','from':'/foo/waldo','path':'/qux/thud'}]",
                "{'foo':{'bar':'baz'},'qux':{'corge':'grault','thud':'fred'}}"},
            {"{'foo':['all','grass','cows','eat']}",
                "[{'op':'move','from':'/foo/1','path':'/foo/3'}]",
                "{'foo':['all','cows','eat','grass']}"},
            {"{'foo':'bar'}", "[{'op':'add','path':'/child','value':{'grandchild':{}}}]",
                "{'foo':'bar','child':{'grandchild':{}}}"},
            {"{'foo':'bar'}", "[{'op':'add','path':'/baz','value':'qux','xyz':123}]",
                "{'foo':'bar','baz':'qux'}"},
            {"{'foo':['bar']}", "[{'op':'add','path':'/foo/-','value':['abc','def']}]",
                "{'foo':['bar',['abc','def']]}"},
        };
        for (String[] row : rows) {
            JsonNode before = json(row[0]);
            equal(json(row[2]), Draft.applied(before, patch(row[1])));
            equal(json(row[0]), before);
        }
        fails(Misfit.class, () -> Draft.applied(json("{'foo':'bar'}"),
                patch("[{'op':'add','path':'/baz/bat','value':'qux'}]")));
    }

    static void aPatchOfAnApplicationIsChecked() {
        fails(IllegalArgumentException.class, () -> Patch.of().add("/a", 0.5));
        equal(json("[{'op':'test','path':'/a','value':null},"
                + "{'op':'move','from':'/a','path':'/b'}]"),
                Patch.of().test("/a", null).move("/a", "/b").asJson());
    }
}
