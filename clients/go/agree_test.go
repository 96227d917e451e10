package relay

import (
	"fmt"
	"math/rand"
	"reflect"
	"testing"
)

const anyDocument = `{"a":[1,[2,3],{"x":[4]}],"b":{"0":5,"x":{"y":[6]},"-":7},"n":8}`

var (
	anyPointers = []string{
		"", "/a", "/a/0", "/a/1", "/a/2", "/a/2/x", "/a/3", "/a/-", "/b", "/b/0", "/b/x", "/b/x/y",
		"/b/x/y/0", "/b/x/y/-", "/b/-", "/n", "/none", "/a/1/0", "/a/1/-", "/none/x",
	}
	anyValues = []string{`null`, `1`, `[]`, `{"x":[9]}`, `[2,3]`, `{}`}
)

func randomPatch(t *testing.T, chance *rand.Rand) Patch {
	pointer := func() string { return anyPointers[chance.Intn(len(anyPointers))] }
	var patch Patch
	for i := 1 + chance.Intn(4); i > 0; i-- {
		value := valueOf(t, anyValues[chance.Intn(len(anyValues))])
		patch = append(patch, []Operation{
			Add(pointer(), value), Remove(pointer()), Replace(pointer(), value),
			Move(pointer(), pointer()), Copy(pointer(), pointer()), Test(pointer(), value),
		}[chance.Intn(6)])
	}
	return patch
}

func randomView(chance *rand.Rand) []Shown {
	var view []Shown
	for i := 1 + chance.Intn(4); i > 0; i-- {
		view = append(view, Shown{anyPointers[chance.Intn(len(anyPointers))], chance.Intn(4) == 0})
	}
	return view
}

// One that watches the whole document knows what each patch leads to. What one knows that watches
// parts of it is the same.
func TestWhatPartsOfADocumentTellIsRight(t *testing.T) {
	known, refused, undone := 0, 0, 0
	for seed := int64(0); seed < 20000; seed++ {
		chance := rand.New(rand.NewSource(seed))
		whole := knownBy(View(""), []Slot{{valueOf(t, anyDocument)}})
		view, patch := randomView(chance), randomPatch(t, chance)
		parts := knownBy(view, whole.slots(view, make([]Slot, len(view))))
		what := fmt.Sprintf("seed %d: %v of %v", seed, patch, view)

		after, err := whole.after(patch)
		partsAfter, partsErr := parts.after(patch)
		if partsErr != nil && err == nil {
			t.Fatalf("%s is not refused", what)
		}
		if err != nil {
			refused++
			continue
		}
		for _, shown := range view {
			value := partsAfter.at(shown.path())
			if value == unknown {
				continue
			}
			known++
			if wanted := after.at(shown.path()); !reflect.DeepEqual(value, wanted) {
				t.Fatalf("%s: %s shows %v, and not %v", what, shown.Pointer, value, wanted)
			}
		}
		if back := inverse(parts, patch); back != nil {
			undone++
			restored, err := after.after(back)
			if err != nil || !reflect.DeepEqual(restored, whole) {
				t.Fatalf("%s: %v leads back to %v: %v", what, back, restored, err)
			}
		}
	}
	if known < 5000 || refused < 5000 || undone < 500 {
		t.Errorf("%d known, %d refused and %d undone are few", known, refused, undone)
	}
}
