package relay

import (
	"fmt"
	"math/rand"
	"reflect"
	"strconv"
	"testing"
	"time"
)

func valueOf(t *testing.T, text string) any {
	var slots any
	if err := read(text, &slots); err != nil {
		t.Fatal(err)
	}
	return slots
}

func patchIn(t *testing.T, text string) Patch {
	var patch Patch
	if err := read(text, &patch); err != nil {
		t.Fatal(err)
	}
	return patch
}

func TestContainersThatStandAtTwoPlaces(t *testing.T) {
	for _, row := range [][3]string{
		{
			`[[1]]`,
			`[{"op":"copy","from":"/0","path":"/1"},{"op":"add","path":"/1/-","value":2}]`,
			`[[1],[1,2]]`,
		},
		{
			`[[1]]`,
			`[{"op":"add","path":"/0/1","value":2},{"op":"copy","from":"/0","path":"/1"},
			{"op":"add","path":"/0/2","value":3}]`,
			`[[1,2,3],[1,2]]`,
		},
		{
			`[{"x":[1]}]`,
			`[{"op":"add","path":"/0/x/1","value":2},{"op":"copy","from":"/0","path":"/1"},
			{"op":"add","path":"/0/x/0","value":3},{"op":"add","path":"/1/x/0","value":4}]`,
			`[{"x":[3,1,2]},{"x":[4,1,2]}]`,
		},
		{
			`[[1]]`,
			`[{"op":"add","path":"/0/1","value":2},{"op":"copy","from":"/0","path":"/0/2"},
			{"op":"remove","path":"/0/2/0"}]`,
			`[[1,2,[2]]]`,
		},
		{
			`[1]`,
			`[{"op":"add","path":"/1","value":2},{"op":"copy","from":"","path":"/2"},
			{"op":"add","path":"/2/0","value":0}]`,
			`[1,2,[0,1,2]]`,
		},
		{
			`[{"x":[1]},0]`,
			`[{"op":"add","path":"/0/x/1","value":2},{"op":"move","from":"/0/x","path":"/1"},
			{"op":"remove","path":"/1/0"}]`,
			`[{},[2],0]`,
		},
	} {
		before, wanted := valueOf(t, row[0]), valueOf(t, row[2])
		after, err := applied(before, patchIn(t, row[1]))
		if err != nil || !reflect.DeepEqual(after, wanted) {
			t.Errorf("%s: %v %v, and not %v", row[1], after, err, wanted)
		}
		if !reflect.DeepEqual(before, valueOf(t, row[0])) {
			t.Errorf("%s writes to the slots before: %v", row[1], before)
		}
	}
}

// Done as one patch, operations come to what they come to one by one, and what was there is as it
// was.
func TestRandomPatches(t *testing.T) {
	const document = `[{"a":[1,[2]],"b":{}},[[],{"a":3}]]`
	for seed := int64(0); seed < 3000; seed++ {
		chance := rand.New(rand.NewSource(seed))
		oneByOne, fitting := valueOf(t, document), Patch{}
		for i := 0; i < 12; i++ {
			one := randomOperation(t, chance)
			isIntoItself := one.Op == "move" && within(one.Path, one.From)
			if after, err := applied(oneByOne, Patch{one}); err == nil && !isIntoItself {
				oneByOne, fitting = after, append(fitting, one)
			}
		}
		before, told := valueOf(t, document), fmt.Sprint(fitting)
		for i := 0; i < 2; i++ {
			after, err := applied(before, fitting)
			if err != nil || !reflect.DeepEqual(after, oneByOne) {
				t.Fatalf("seed %d: %v: %v %v, and not %v", seed, fitting, after, err, oneByOne)
			}
			if !reflect.DeepEqual(before, valueOf(t, document)) || fmt.Sprint(fitting) != told {
				t.Fatalf("seed %d: %v writes to %v", seed, told, before)
			}
		}
	}
}

func within(path, from string) bool { return len(path) > len(from) && path[:len(from)] == from }

func randomOperation(t *testing.T, chance *rand.Rand) Operation {
	path := func() string {
		path := ""
		for i := 1 + chance.Intn(3); i > 0; i-- {
			path += "/" + []string{"0", "1", "a", "b", "-"}[chance.Intn(5)]
		}
		return path
	}
	op := []string{"add", "add", "remove", "replace", "move", "copy", "copy"}[chance.Intn(7)]
	value := valueOf(t, `[1,[],{},[[1]],{"a":[2]}]`).([]any)[chance.Intn(5)]
	return Operation{Op: op, Path: path(), From: path(), Value: value}
}

func TestManyOperationsOnALargeObjectCostFewCopiesOfIt(t *testing.T) {
	object := map[string]any{}
	for i := 0; i < 18000; i++ {
		object["m"+strconv.Itoa(i)] = i
	}
	var patch Patch
	for i := 0; i < 64; i++ {
		patch = append(patch, Operation{Op: "remove", Path: "/0/m" + strconv.Itoa(i)})
	}
	slots := []any{object}
	one, many := fastest(t, slots, patch[:1]), fastest(t, slots, patch)
	t.Logf("one removal %v, 64 removals %v", one, many)
	if many > 24*one {
		t.Errorf("64 removals take %v, and one takes %v", many, one)
	}
}

func fastest(t *testing.T, slots []any, patch Patch) time.Duration {
	least := time.Hour
	for i := 0; i < 7; i++ {
		began := time.Now()
		if _, err := applied(slots, patch); err != nil {
			t.Fatal(err)
		}
		if lasted := time.Since(began); lasted < least {
			least = lasted
		}
	}
	return least
}
