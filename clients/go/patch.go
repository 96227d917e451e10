package relay

import "fmt"

// ownList and ownObject are what a patch has copied, which is its own until it is done, and it
// writes to that and to nothing else: so it copies each container once. An own container stands at
// one place, within others that are own.
type ownList struct{ items []any }
type ownObject struct{ members map[string]any }

// applied is the value after a patch of a watcher, which has no `test`. What it leaves alone is
// shared with the value before, of which nothing is changed.
func applied(value any, patch Patch) (any, error) {
	for _, one := range patch {
		var err error
		if value, err = step(value, one); err != nil {
			return nil, err
		}
	}
	return finished(value), nil
}

func step(value any, one Operation) (any, error) {
	path, err := tokens(one.Path)
	if err != nil {
		return nil, err
	}
	switch one.Op {
	case "add", "replace", "remove":
		return changed(value, path, one.Op, one.Value)
	case "move", "copy":
		from, err := tokens(one.From)
		if err != nil {
			return nil, err
		}
		part, err := at(value, from)
		if err != nil {
			return nil, err
		}
		if one.Op == "move" {
			value, err = changed(value, from, "remove", nil)
		} else if isOwn(part) {
			part = finished(part) // it comes to stand at a second place
			value, err = changed(value, from, "replace", part)
		}
		if err != nil {
			return nil, err
		}
		return changed(value, path, "add", part)
	}
	return nil, fmt.Errorf("relay: no operation: %q", one.Op)
}

// changed is the value with a part added, replaced or removed at a path. The containers along the
// path are own.
func changed(value any, path []string, op string, part any) (any, error) {
	if len(path) == 0 {
		return part, nil
	}
	token, rest := path[0], path[1:]
	if len(rest) > 0 || op != "add" {
		below, err := child(value, token)
		if err != nil {
			return nil, err
		}
		if len(rest) > 0 {
			if part, err = changed(below, rest, op, part); err != nil {
				return nil, err
			}
			op = "replace"
		}
	}
	switch own := owned(value).(type) {
	case *ownObject:
		own.change(token, op, part)
		return own, nil
	case *ownList:
		return own, own.change(token, op, part)
	}
	return nil, fmt.Errorf("relay: no container of %q", token)
}

func (own *ownObject) change(name, op string, part any) {
	if op == "remove" {
		delete(own.members, name)
	} else {
		own.members[name] = part
	}
}

func (own *ownList) change(token, op string, part any) error {
	place, isIndex := index(token)
	if op == "add" && token == "-" {
		place, isIndex = len(own.items), true
	}
	if !isIndex || place > len(own.items) {
		return fmt.Errorf("relay: no place in a list: %q", token)
	}
	switch op {
	case "add":
		own.items = append(own.items, nil)
		copy(own.items[place+1:], own.items[place:])
		own.items[place] = part
	case "remove":
		own.items = append(own.items[:place], own.items[place+1:]...)
	default:
		own.items[place] = part
	}
	return nil
}

// owned is an own copy of a container, or the container if it is own.
func owned(value any) any {
	switch holder := value.(type) {
	case map[string]any:
		members := make(map[string]any, len(holder)+1)
		for name, part := range holder {
			members[name] = part
		}
		return &ownObject{members}
	case []any:
		return &ownList{append(make([]any, 0, len(holder)+1), holder...)}
	}
	return value
}

// finished is a value as others may hold it: nothing of it is own any more.
func finished(value any) any {
	switch own := value.(type) {
	case *ownObject:
		for name, part := range own.members {
			if isOwn(part) {
				own.members[name] = finished(part)
			}
		}
	case *ownList:
		for place, part := range own.items {
			own.items[place] = finished(part)
		}
	}
	return bare(value)
}

func isOwn(value any) bool {
	switch value.(type) {
	case *ownList, *ownObject:
		return true
	}
	return false
}

// bare is the list or the object of a container that may be own.
func bare(value any) any {
	switch own := value.(type) {
	case *ownObject:
		return own.members
	case *ownList:
		return own.items
	}
	return value
}

func child(value any, token string) (any, error) {
	switch holder := bare(value).(type) {
	case map[string]any:
		if part, isThere := holder[token]; isThere {
			return part, nil
		}
	case []any:
		if place, isIndex := index(token); isIndex && place < len(holder) {
			return holder[place], nil
		}
	}
	return nil, fmt.Errorf("relay: nothing at %q", token)
}

func at(value any, path []string) (any, error) {
	for _, token := range path {
		var err error
		if value, err = child(value, token); err != nil {
			return nil, err
		}
	}
	return value, nil
}
