package relay

import "strings"

// An overlay is this client's edits that the slots do not show yet, in the order in which they were
// made. Those that are optimistic are laid over the slots. A patch is done whole or not at all, so
// an edit of which an operation is known not to fit shows nothing.
type overlay []*edit

func (o overlay) pending() int {
	count := 0
	for _, one := range o {
		if one.isOptimistic {
			count++
		}
	}
	return count
}

// take takes out those edits that are to leave, and gives them.
func (o *overlay) take(leaves func(*edit) bool) []*edit {
	var left, stay []*edit
	for _, one := range *o {
		if leaves(one) {
			left = append(left, one)
		} else {
			stay = append(stay, one)
		}
	}
	*o = stay
	return left
}

// shows says whether slots show an edit that was done. Of another run they tell nothing.
func (h *held) shows(one *edit) bool {
	return one.rev > 0 && one.run == h.Epoch && one.rev <= h.Rev
}

// settle takes out those that are done and may touch no slot, for which no message may come. It
// gives whether one of them is laid over the slots: that stays until slots are asked for anew.
func (o *overlay) settle(present *held) bool {
	mayWait := false
	o.take(func(one *edit) bool {
		isTraceless := one.rev > 0 && one.run == present.Epoch && !touches(one.patch, present.view)
		mayWait = mayWait || (isTraceless && one.isOptimistic)
		return isTraceless && !one.isOptimistic
	})
	return mayWait
}

func (o overlay) shown(present *held) []Slot {
	slots, now := present.slots, knownBy(present.view, present.slots)
	for _, one := range o {
		if !one.isOptimistic {
			continue
		}
		if after, err := now.after(one.patch); err == nil {
			now, slots = after, after.slots(present.view, slots)
		}
	}
	return slots
}

// touches says whether a patch surely touches a slot of a view: of that the relay tells a watcher.
func touches(patch Patch, view []Shown) bool {
	for _, one := range patch {
		for _, shown := range view {
			if !shown.IsSize && one.touches(shown.path()) {
				return true
			}
		}
	}
	return false
}

func (o Operation) touches(shown []string) bool {
	path, err := tokens(o.Path)
	if err != nil || o.Op == "test" {
		return false
	}
	if o.Op != "move" {
		return startsWith(path, shown)
	}
	// The last element of a list may be moved to the end of it, which changes nothing.
	if o.From == o.Path || strings.HasSuffix(o.Path, "/-") {
		return false
	}
	from, err := tokens(o.From)
	return err == nil && (startsWith(path, shown) || startsWith(from, shown))
}
