package relay

import (
	"encoding/json"
	"fmt"
	"reflect"
	"sort"
	"strconv"
)

// known is what the slots of a view tell of their document, and of those to which patches lead: the
// values at some paths of which none leads into another. Of what no value slot shows nothing is
// known.
type known []root

type root struct {
	path  []string
	value any
}

type absentValue struct{}
type unknownValue struct{}

var (
	absent  any = absentValue{}  // nothing stands there
	unknown any = unknownValue{} // something stands there, or nothing
)

func isValue(value any) bool { return value != absent && value != unknown }

func knownBy(view []Shown, slots []Slot) known {
	var roots known
	for i, shown := range view {
		if shown.IsSize {
			continue
		}
		value := absent
		if len(slots[i]) > 0 {
			value = slots[i][0]
		}
		roots = append(roots, root{shown.path(), value})
	}
	sort.SliceStable(roots, func(i, j int) bool { return len(roots[i].path) < len(roots[j].path) })
	var outer known
	for _, one := range roots {
		if outer.covering(one.path) == nil {
			outer = append(outer, one)
		}
	}
	return outer
}

func (k known) covering(path []string) *root {
	for i := range k {
		if startsWith(path, k[i].path) {
			return &k[i]
		}
	}
	return nil
}

// at is the value at a path, or absent, or unknown.
func (k known) at(path []string) any {
	if covering := k.covering(path); covering != nil {
		return part(covering.value, path[len(covering.path):])
	}
	return unknown
}

func part(value any, path []string) any {
	for _, token := range path {
		if !isValue(value) {
			return value
		}
		below, err := child(value, token)
		if err != nil {
			return absent
		}
		value = below
	}
	return value
}

// value is that at a path. It fails if none is known to stand there.
func (k known) value(path []string) (any, error) {
	value := k.at(path)
	if !isValue(value) {
		return nil, errMisfit
	}
	return value, nil
}

// after is what is known after a patch. It fails if that is known to be refused.
func (k known) after(patch Patch) (known, error) {
	for _, one := range patch {
		var err error
		if k, err = k.step(one); err != nil {
			return nil, err
		}
	}
	return k, nil
}

func (k known) step(one Operation) (known, error) {
	path, err := tokens(one.Path)
	if err != nil {
		return nil, err
	}
	if one.Op != "add" && !one.hasFrom() && k.at(path) == absent {
		return nil, errMisfit
	}
	switch one.Op {
	case "add":
		return k.added(path, one.Value)
	case "remove":
		return k.removed(path)
	case "replace":
		return k.replaced(path, one.Value)
	case "test":
		if there := k.at(path); there != unknown && !reflect.DeepEqual(there, one.Value) {
			return nil, errMisfit
		}
		return k, nil
	case "move", "copy":
		return k.carried(one, path)
	}
	return nil, fmt.Errorf("relay: no operation: %q", one.Op)
}

// carried is what is known after a move or a copy.
func (k known) carried(one Operation, path []string) (known, error) {
	from, err := tokens(one.From)
	if err != nil {
		return nil, err
	}
	value := k.at(from)
	isInto := len(path) > len(from) && startsWith(path, from)
	switch {
	case value == absent || (one.Op == "move" && isInto):
		return nil, errMisfit
	case one.Op == "copy":
		return k.added(path, value)
	case one.From == one.Path:
		return k, nil
	}
	without, err := k.removed(from)
	if err != nil {
		return nil, err
	}
	return without.added(path, value)
}

// A change at a path makes another value of each root that is touched.
type change struct {
	path []string
	// within is of a root in whose value it is.
	within func(value any, pointer string) (any, error)
	// above is of a root at the path, or below it by the rest.
	above func(rest []string) any
	moves bool // what stands behind the path in a list
}

func (k known) changed(one change) (known, error) {
	roots := make(known, len(k))
	for i, root := range k {
		roots[i] = root
		switch {
		case startsWith(root.path, one.path):
			roots[i].value = one.above(root.path[len(one.path):])
		case startsWith(one.path, root.path):
			if root.value == absent {
				return nil, errMisfit
			}
			if root.value == unknown {
				continue
			}
			value, err := one.within(root.value, pointerOf(one.path[len(root.path):]))
			if err != nil {
				return nil, err
			}
			roots[i].value = value
		case one.moves && mayMove(root, one.path):
			roots[i].value = unknown
		}
	}
	return roots, nil
}

// mayMove says whether a root may be moved by what comes or goes at a path in what may be a list.
func mayMove(one root, path []string) bool {
	last := len(path) - 1
	if !isPlace(path) || len(one.path) <= last || !startsWith(one.path, path[:last]) {
		return false
	}
	place, isIndex := index(one.path[last])
	if isEnd(path) {
		return isIndex && one.value == absent
	}
	from, _ := index(path[last])
	return isIndex && place >= from
}

func (k known) added(path []string, value any) (known, error) {
	within := func(whole any, pointer string) (any, error) {
		if value == unknown {
			return unknown, nil
		}
		return applied(whole, Patch{Add(pointer, value)})
	}
	// Below a place in what may be a list, or at the end of one, something else may stand.
	above := func(rest []string) any {
		if isPlace(path) && (len(rest) > 0 || isEnd(path)) {
			return unknown
		}
		return part(value, rest)
	}
	return k.changed(change{path, within, above, true})
}

func (k known) removed(path []string) (known, error) {
	if len(path) == 0 {
		return nil, errMisfit
	}
	within := func(whole any, pointer string) (any, error) {
		return applied(whole, Patch{Remove(pointer)})
	}
	above := func([]string) any {
		if isPlace(path) {
			return unknown
		}
		return absent
	}
	return k.changed(change{path, within, above, true})
}

func (k known) replaced(path []string, value any) (known, error) {
	within := func(whole any, pointer string) (any, error) {
		return applied(whole, Patch{Replace(pointer, value)})
	}
	return k.changed(change{path, within, func(rest []string) any { return part(value, rest) }, false})
}

// slots is what a view shows, each slot as it was if it is not known what it shows.
func (k known) slots(view []Shown, before []Slot) []Slot {
	slots := make([]Slot, len(view))
	for i, shown := range view {
		slots[i] = slotOf(shown, k.at(shown.path()), before[i])
	}
	return slots
}

func slotOf(shown Shown, value any, before Slot) Slot {
	switch {
	case value == unknown:
		return before
	case value == absent:
		return Slot{}
	case !shown.IsSize:
		return Slot{value}
	}
	switch holder := value.(type) {
	case []any:
		return Slot{number(len(holder))}
	case map[string]any:
		return Slot{number(len(holder))}
	}
	return Slot{}
}

func number(of int) json.Number { return json.Number(strconv.Itoa(of)) }
