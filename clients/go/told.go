package relay

// told is a board as its session tells it what becomes of the room.
type told Board

func (t *told) held(before, now *held, patch Patch, single bool) {
	b := (*Board)(t)
	if before.slots != nil && before.Epoch != now.Epoch {
		b.undoing, b.redoing = nil, nil // what was done was done to a document that is gone
	}
	// Slots that came are of the newest run: what was done in another one is gone.
	leaves := func(one *edit) bool { return now.shows(one) || (one.rev > 0 && one.run != now.Epoch) }
	for _, one := range b.overlay.take(leaves) {
		if single && one.rev == now.Rev && one.run == now.Epoch {
			b.record(one, inverse(knownBy(before.view, before.slots), one.patch))
		}
	}
	b.isAsking = b.isAsking && patch != nil
	b.publish(patch)
	b.settle()
}

func (t *told) missedNothing() {
	b := (*Board)(t)
	before := b.overlay.pending()
	b.overlay.take(func(one *edit) bool { return one.rev > 0 })
	if b.overlay.pending() != before {
		b.publish(nil)
	}
	b.becomeQuiet()
}

func (t *told) entered(state State, cause error) {
	b := (*Board)(t)
	b.isAsking = b.isAsking && state == Open
	if b.options.OnState != nil {
		b.teller.tell(func() { b.options.OnState(state, cause) })
	}
	if state != Closed {
		return
	}
	b.closedBy = cause
	for _, one := range b.waiters {
		one.end(Change{}, b.whyClosed())
	}
	b.waiters = nil
	b.becomeQuiet()
	close(b.closed)
	b.cancel()
}

func (t *told) shown(number int, cause *Refused) {
	b := (*Board)(t)
	var left []*Asked
	for _, one := range b.waiters {
		switch {
		case cause == nil && one.number <= number:
			one.come(*b.latest)
		case cause != nil && one.number == number:
			one.end(Change{}, cause)
		default:
			left = append(left, one)
		}
	}
	b.waiters = left
}

func (t *told) ended(one *edit) {
	b := (*Board)(t)
	close(one.ended)
	if one.err == nil {
		b.settle()
		return
	}
	b.overlay.take(func(other *edit) bool { return other == one })
	if one.isOptimistic {
		b.publish(nil)
		if b.options.OnTakenBack != nil {
			b.teller.tell(func() { b.options.OnTakenBack(one.patch, one.err) })
		}
	}
	b.becomeQuiet()
}
