package relay

import (
	"context"
	"fmt"
)

// Place is one value of a board's view, or within it.
type Place struct {
	board   *Board
	pointer string
}

// At is the value at a pointer.
func (b *Board) At(pointer string) *Place { return &Place{b, pointer} }

// Slot is what is shown there. It fails with ErrNotShown.
func (p *Place) Slot() (Slot, error) {
	seen, isThere := p.board.Shown()
	if !isThere {
		return nil, ErrNotShown
	}
	return p.in(seen.View, seen.Slots)
}

// Confirmed is the same without edits that wait.
func (p *Place) Confirmed() (Slot, error) {
	seen, isThere := p.board.Shown()
	if !isThere {
		return nil, ErrNotShown
	}
	return p.in(seen.View, seen.Confirmed)
}

// Value is what is shown at a place as another type; the type's zero if nothing is.
func Value[T any](place *Place) (T, error) {
	slot, err := place.Slot()
	if err != nil {
		var zero T
		return zero, err
	}
	return As[T](slot)
}

// Set puts a value there, whatever stands there now. It shows at once.
func (p *Place) Set(value any) (*Answer, error) {
	slot, err := p.Slot()
	if err != nil {
		return nil, err
	}
	return p.board.Send(p.setting(slot, value), Optimistic)
}

// Push adds a value at the end of the list that stands there. It shows at once.
func (p *Place) Push(value any) (*Answer, error) {
	return p.board.Send(Patch{Add(p.pointer+"/-", value)}, Optimistic)
}

// Remove removes what is shown there, and nothing else: it is refused, as test-failed, if another
// value has come to stand there meanwhile. It shows at once.
func (p *Place) Remove() (*Answer, error) {
	slot, err := p.Slot()
	if err != nil {
		return nil, err
	}
	if len(slot) == 0 {
		return nil, fmt.Errorf("relay: nothing stands at %s", p.pointer)
	}
	return p.board.Send(Patch{Test(p.pointer, slot[0]), Remove(p.pointer)}, Optimistic)
}

// Update puts at a place what a function makes of the value that the relay has shown, of the type's
// zero if there is none. No other edit comes in between: if others are faster, the function is
// called again.
func Update[T any](
	ctx context.Context, place *Place, make func(T) (T, error),
) (Revision, error) {
	return place.board.Change(ctx, func(seen Change) (Patch, error) {
		slot, err := place.in(seen.View, seen.Confirmed)
		if err != nil {
			return nil, err
		}
		before, err := As[T](slot)
		if err != nil {
			return nil, err
		}
		after, err := make(before)
		if err != nil {
			return nil, err
		}
		return place.setting(slot, after), nil
	})
}

func (p *Place) setting(before Slot, value any) Patch {
	if len(before) == 0 {
		return Patch{Add(p.pointer, value)}
	}
	return Patch{Replace(p.pointer, value)}
}

func (p *Place) in(view []Shown, slots []Slot) (Slot, error) {
	path, err := tokens(p.pointer)
	if err != nil {
		return nil, err
	}
	value := knownBy(view, slots).at(path)
	if value == unknown {
		return nil, fmt.Errorf("%w: %s", ErrNotShown, p.pointer)
	}
	return slotOf(Shown{Pointer: p.pointer}, value, nil), nil
}
