package relay

import (
	"reflect"
	"testing"
)

func viewOf(t *testing.T, text string) []Shown {
	var view []Shown
	if err := read(text, &view); err != nil {
		t.Fatal(err)
	}
	return view
}

func slotsIn(t *testing.T, text string) []Slot {
	slots, err := slotsOf(valueOf(t, text).([]any))
	if err != nil {
		t.Fatal(err)
	}
	return slots
}

func TestPatchesAreLaidOverSlots(t *testing.T) {
	for _, row := range [][4]string{
		{`["/a"]`, `[[["b"]]]`, `[{"op":"add","path":"/a/-","value":"c"}]`, `[[["b","c"]]]`},
		{
			`["/a",{"size":"/a"}]`, `[[["b"]],[1]]`,
			`[{"op":"add","path":"/a/0","value":"c"}]`, `[[["c","b"]],[2]]`,
		},
		{`["/a/0","/a"]`, `[[1],[[1,2]]]`, `[{"op":"remove","path":"/a/0"}]`, `[[2],[[2]]]`},
		// What stands behind an element that comes or goes is not known.
		{`["/a/0","/a/2"]`, `[[1],[3]]`, `[{"op":"add","path":"/a/1","value":7}]`, `[[1],[3]]`},
		{`["/a/0"]`, `[[1]]`, `[{"op":"remove","path":"/a/0"}]`, `[[1]]`},
		{`["/a/b"]`, `[[1]]`, `[{"op":"remove","path":"/a/b"}]`, `[[]]`},
		// What stands around it tells a slot.
		{`["/a/b/c"]`, `[[1]]`, `[{"op":"replace","path":"/a","value":{"b":{"c":2}}}]`, `[[2]]`},
		{`["/a/b/c"]`, `[[1]]`, `[{"op":"add","path":"/a","value":7}]`, `[[]]`},
		// A value from elsewhere is not known, nor what it is put into.
		{`["/a"]`, `[[[1]]]`, `[{"op":"copy","from":"/n","path":"/a/0"}]`, `[[[1]]]`},
		{`["/a","/b"]`, `[[1],[2]]`, `[{"op":"move","from":"/a","path":"/b"}]`, `[[],[1]]`},
		{
			`["/a"]`, `[[{"n":1,"m":[2]}]]`,
			`[{"op":"test","path":"/a","value":{"m":[2],"n":1}},{"op":"remove","path":"/a/m"}]`,
			`[[{"n":1}]]`,
		},
	} {
		view, slots := viewOf(t, row[0]), slotsIn(t, row[1])
		after, err := knownBy(view, slots).after(patchIn(t, row[2]))
		if err != nil {
			t.Fatal(row, err)
		}
		if shown := after.slots(view, slots); !reflect.DeepEqual(shown, slotsIn(t, row[3])) {
			t.Errorf("%v: %v", row, shown)
		}
	}
}

func TestWhatIsRefusedIsKnown(t *testing.T) {
	before := knownBy(viewOf(t, `["/a","/b"]`), slotsIn(t, `[[[1]],[]]`))
	for _, patch := range []string{
		`[{"op":"remove","path":"/a/1"}]`,
		`[{"op":"replace","path":"/b","value":1}]`,
		`[{"op":"add","path":"/b/c","value":1}]`,
		`[{"op":"test","path":"/a/0","value":true}]`,
		`[{"op":"move","from":"/a","path":"/a/0"}]`,
		`[{"op":"move","from":"/a/0","path":"/a/0/x"}]`,
		`[{"op":"run","path":"/a/0"}]`,
		`[{"op":"remove","path":""}]`,
	} {
		if after, err := before.after(patchIn(t, patch)); err == nil {
			t.Errorf("%s leads to %v", patch, after)
		}
	}
}

func TestWhatWasDoneIsTakenBack(t *testing.T) {
	view := View("")
	for _, row := range [][2]string{
		{`{"a":[1,2,3]}`, `[{"op":"remove","path":"/a/1"}]`},
		{`{"a":[1]}`, `[{"op":"remove","path":"/a/0"},{"op":"add","path":"/a/-","value":7}]`},
		{`{"a":[1,2,3]}`, `[{"op":"move","from":"/a/0","path":"/a/2"}]`},
		{`{"a":[1,2,3],"b":{}}`, `[{"op":"move","from":"/a/0","path":"/b/c"}]`},
		{`{"a":{"b":1}}`, `[{"op":"replace","path":"/a/b","value":2}]`},
		{`{"a":{"b":1}}`, `[{"op":"add","path":"/a/b","value":2},{"op":"remove","path":"/a"}]`},
		{`{"a":[[]]}`, `[{"op":"copy","from":"/a/0","path":"/a/0/-"}]`},
		{`{"a":1}`, `[{"op":"add","path":"","value":[1]}]`},
		{`{"a":1}`, `[{"op":"add","path":"/a~1b","value":[1]}]`},
	} {
		patch, slots := patchIn(t, row[1]), []Slot{{valueOf(t, row[0])}}
		before := knownBy(view, slots)
		after, err := before.after(patch)
		if err != nil {
			t.Fatal(row, err)
		}
		back := inverse(before, patch)
		undone, err := after.after(back)
		if err != nil || !reflect.DeepEqual(undone.slots(view, slots), slots) {
			t.Errorf("%v: by %v to %v: %v", row, back, undone, err)
		}
		// Somebody else changed what it did.
		if fits(knownBy(view, []Slot{{valueOf(t, `{"a":"other"}`)}}), back) {
			t.Errorf("%v: %v still fits", row, back)
		}
	}
}

func TestWhatTheSlotsDoNotTellIsNotTakenBack(t *testing.T) {
	before := knownBy(View("/a"), slotsIn(t, `[[1]]`))
	for _, patch := range []string{
		`[{"op":"remove","path":"/b"}]`,
		`[{"op":"copy","from":"/b","path":"/a"}]`,
		`[{"op":"add","path":"/b/0","value":1}]`,
		`[{"op":"test","path":"/a","value":1}]`,
		`[]`,
	} {
		if back := inverse(before, patchIn(t, patch)); back != nil {
			t.Errorf("%s is taken back by %v", patch, back)
		}
	}
}

func TestWhatSurelyTouchesASlot(t *testing.T) {
	for patch, wanted := range map[string]bool{
		`[{"op":"replace","path":"/a/b/c","value":1}]`:     true,
		`[{"op":"remove","path":"/a/b"}]`:                  true,
		`[{"op":"copy","from":"/x","path":"/a/b/-"}]`:      true,
		`[{"op":"move","from":"/a/b/0","path":"/x"}]`:      true,
		`[{"op":"move","from":"/a/b/0","path":"/a/b/1"}]`:  true,
		`[{"op":"move","from":"/a/b/0","path":"/a/b/-"}]`:  false,
		`[{"op":"move","from":"/a/b","path":"/a/b"}]`:      false,
		`[{"op":"test","path":"/a/b","value":1}]`:          false,
		`[{"op":"replace","path":"/a","value":1}]`:         false,
		`[{"op":"replace","path":"/x","value":{"a":"b"}}]`: false,
	} {
		if found := touches(patchIn(t, patch), View("/a/b")); found != wanted {
			t.Errorf("%s: %v", patch, found)
		}
	}
}

func TestNumbersAreWholeAndHave64Bits(t *testing.T) {
	for _, value := range []any{1.5, 1e21, "x", uint64(1 << 63)} {
		if _, err := jsonOf([]any{value}); (err == nil) != (value == "x") {
			t.Errorf("%v: %v", value, err)
		}
	}
	wanted := valueOf(t, `[3,9223372036854775807,0]`)
	own, err := jsonOf([]any{3.0, int64(1<<63 - 1), 0})
	if err != nil || !reflect.DeepEqual(own, wanted) {
		t.Error(own, err)
	}
}
