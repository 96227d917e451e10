package relay

import (
	"context"
	"math/rand"
	"time"
)

// tries is how often an edit is made anew at most when others are faster.
const tries = 20

const (
	pause        = 10 * time.Millisecond
	longestPause = 500 * time.Millisecond
)

// Make makes an edit of what is shown, or nil if nothing is to be done.
type Make func(seen Change) (Patch, error)

// Change edits by what a function makes of what the relay has shown, and is done to that alone. If
// others are faster, the function is called again, 20 times at most. If it gives nil, nothing is
// done. It fails as an edit with a base does, and with the function.
func (b *Board) Change(ctx context.Context, make Make) (Revision, error) {
	if err := b.mayEdit(); err != nil {
		return Revision{}, err
	}
	if _, err := b.Ready(ctx); err != nil {
		return Revision{}, err
	}
	return b.compareAndSet(ctx, make)
}

func (b *Board) compareAndSet(
	ctx context.Context, make Make, options ...EditOption,
) (Revision, error) {
	for tried := 1; ; tried++ {
		seen, _ := b.Shown()
		patch, err := make(seen)
		if err != nil || patch == nil {
			return seen.Revision, err
		}
		done, err := b.Edit(ctx, patch, append(options, On(seen.Revision))...)
		if !isStale(err) || tried == tries {
			return done, err
		}
		if tried > 1 {
			wait(ctx, tried)
		}
		// An edit elsewhere leaves the slots' revision behind the room's.
		if _, err := b.Sync(ctx); err != nil {
			return Revision{}, err
		}
	}
}

// wait lasts up to twice as long each time, so that many who count take turns.
func wait(ctx context.Context, tried int) {
	long := pause << tried
	if long > longestPause {
		long = longestPause
	}
	select {
	case <-time.After(time.Duration(rand.Int63n(int64(long)))):
	case <-ctx.Done():
	}
}

// Undo takes back the newest edit of this client that the slots showed and that is not undone. It
// shows at once. It gives false if there is no such edit. It fails as an edit does, and with
// *Refused, as changed, if somebody changed what the edit left: then it is passed over.
func (b *Board) Undo(ctx context.Context) (bool, error) { return b.step(ctx, &b.undoing, undone) }

// Redo does again what was undone last, unless there was another edit since.
func (b *Board) Redo(ctx context.Context) (bool, error) { return b.step(ctx, &b.redoing, redone) }

// step is made one after the other, each when all edits before it are shown.
func (b *Board) step(ctx context.Context, from *[]Patch, why role) (bool, error) {
	if err := b.mayEdit(); err != nil {
		return false, err
	}
	b.stepping.Lock()
	defer b.stepping.Unlock()
	if err := b.whenQuiet(ctx); err != nil {
		return false, err
	}
	back := b.newest(from)
	if back == nil {
		return false, nil
	}
	as := func(e *edit) { e.role = why }
	_, err := b.compareAndSet(ctx, func(seen Change) (Patch, error) {
		if !fits(knownBy(seen.View, seen.Confirmed), back) {
			return nil, &Refused{Fault: "changed"}
		}
		return back, nil
	}, as, Optimistic)
	return true, err
}

func (b *Board) newest(from *[]Patch) Patch {
	b.lock.Lock()
	defer b.lock.Unlock()
	last := len(*from) - 1
	if last < 0 {
		return nil
	}
	back := (*from)[last]
	*from = (*from)[:last]
	return back
}

func (b *Board) whenQuiet(ctx context.Context) error {
	quiet := make(chan struct{})
	b.lock.Lock()
	b.quiet = append(b.quiet, quiet)
	b.becomeQuiet()
	b.lock.Unlock()
	select {
	case <-quiet:
		return nil
	case <-ctx.Done():
		return ctx.Err()
	}
}
