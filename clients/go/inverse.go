package relay

import "strconv"

// An edit has no more operations.
const longestPatch = 64

// inverse is what takes a patch back of which this is known before it: each operation backwards,
// behind tests that nobody changed since what it did. It is nil if too little is known.
func inverse(before known, patch Patch) Patch {
	back := undoing{known: before}
	for _, one := range patch {
		if err := back.follow(one); err != nil {
			return nil
		}
	}
	var whole Patch
	for i := len(back.backwards) - 1; i >= 0; i-- {
		whole = append(whole, back.backwards[i]...)
	}
	if len(whole) == 0 || len(whole) > longestPatch || !fits(back.known, whole) {
		return nil
	}
	return whole
}

// fits says whether an inverse can be done to this, and puts no member where one may stand.
func fits(now known, patch Patch) bool {
	for _, one := range patch {
		path, err := tokens(one.Path)
		if err != nil {
			return false
		}
		inList, err := now.isInList(path)
		if err != nil || (one.Op == "add" && !inList && now.at(path) != absent) {
			return false
		}
		if now, err = now.step(one); err != nil {
			return false
		}
	}
	return true
}

func (k known) isInList(path []string) (bool, error) {
	if !isPlace(path) {
		return false, nil
	}
	holder, err := k.value(path[:len(path)-1])
	_, isList := holder.([]any)
	return isList, err
}

type undoing struct {
	known     known
	backwards []Patch
}

func (u *undoing) follow(one Operation) error {
	path, err := tokens(one.Path)
	if err != nil {
		return err
	}
	switch one.Op {
	case "test":
		_, err := u.known.step(one)
		return err
	case "remove":
		return u.remove(path)
	case "replace":
		return u.exchange(path, one.Value)
	case "add":
		return u.add(path, one.Value)
	}
	from, err := tokens(one.From)
	if err != nil {
		return err
	}
	value, err := u.known.value(from)
	if err != nil || (one.Op == "move" && one.From == one.Path) {
		return err
	}
	if one.Op == "move" {
		if err := u.remove(from); err != nil {
			return err
		}
	}
	return u.add(path, value)
}

func (u *undoing) do(one Operation, back Patch) error {
	after, err := u.known.step(one)
	u.known, u.backwards = after, append(u.backwards, back)
	return err
}

func (u *undoing) exchange(path []string, value any) error {
	old, err := u.known.value(path)
	if err != nil {
		return err
	}
	there := pointerOf(path)
	return u.do(Replace(there, value), Patch{Test(there, value), Replace(there, old)})
}

func (u *undoing) add(path []string, value any) error {
	inList, err := u.known.isInList(path)
	if err != nil {
		return err
	}
	if !inList && u.known.at(path) != absent {
		return u.exchange(path, value)
	}
	if inList && isEnd(path) {
		holder, _ := u.known.value(path[:len(path)-1])
		end := strconv.Itoa(len(holder.([]any)))
		path = append(append([]string{}, path[:len(path)-1]...), end)
	}
	there := pointerOf(path)
	return u.do(Add(there, value), Patch{Test(there, value), Remove(there)})
}

func (u *undoing) remove(path []string) error {
	old, err := u.known.value(path)
	if err != nil {
		return err
	}
	inList, err := u.known.isInList(path)
	if err != nil {
		return err
	}
	there := pointerOf(path)
	var back Patch
	if inList {
		back = u.around(path)
	}
	return u.do(Remove(there), append(back, Add(there, old)))
}

// around tests that an element comes back between the same two, or to a list that is empty.
func (u *undoing) around(path []string) Patch {
	holder := path[:len(path)-1]
	list := u.known.at(holder).([]any)
	if len(list) == 1 {
		return Patch{Test(pointerOf(holder), []any{})}
	}
	place, _ := index(path[len(path)-1])
	var tests Patch
	if place > 0 {
		tests = append(tests, Test(pointerOf(holder)+Pointer(place-1), list[place-1]))
	}
	if place+1 < len(list) {
		tests = append(tests, Test(pointerOf(holder)+Pointer(place), list[place+1]))
	}
	return tests
}
