// Package relay is a client of the relay (docs/PROTOCOL.md, "What a client does"): the slots of a
// view, kept right over lost connections and restarts.
//
//	const url = "ws://127.0.0.1:8080/rooms/demo"
//	board, err := relay.Connect(ctx, url, relay.View("/cards"), relay.Options{})
//	rev, err := board.Edit(ctx, relay.Patch{relay.Add("/cards/-", "milk")})
package relay

import (
	"context"
	"sync"
	"time"
)

// Older edits are not undone.
const kept = 100

// Options of a board; all may be left out. Functions are called one after the other.
type Options struct {
	// Begin is the document that the room is given if it has none: the board adds it, if null stands
	// there, on each connection before anything else. If that is refused for another reason than that
	// the room has a document, the board ends.
	Begin any
	// ReadOnly enters the room only to watch it, by its WatchAddress. Each edit fails at once with
	// *Refused, as read-only, and nothing is sent: so do Change, End, Will, Undo and Redo. Begin is
	// not added. If there is no room of the name yet, the relay answers 404, and the board is Waiting
	// until there is one.
	ReadOnly bool
	// OnChange is told of each change of what is shown.
	OnChange func(Change)
	// OnState is told of each new state, with its cause if there is one.
	OnState func(State, error)
	// OnTakenBack is told of each optimistic edit that failed: what it showed is taken back.
	OnTakenBack func(Patch, error)
	// GuardedOnly refuses, as away, what is edited while the connection is lost, but edits with a base
	// or with a test as their first operation.
	GuardedOnly bool
	// FirstWait is the longest wait after a loss, 200 ms if it is zero. Each further one is up to
	// twice as long, and at most LongestWait, 10 s if it is zero.
	FirstWait, LongestWait time.Duration
}

// Change is what a board shows.
type Change struct {
	Slots     []Slot // one for each pointer of the view, with the optimistic edits that wait
	Confirmed []Slot // the same without these edits: what the relay has shown
	View      []Shown
	Revision        // of what is confirmed
	Pending   int   // how many optimistic edits wait
	Patch     Patch // that led to Confirmed, or nil if all came anew or only what waits changed
}

// Asked is a view that was asked for.
type Asked struct {
	number int
	only   []Shown // the view of which the slots have to be; nil if those of a later one will do
	done   chan struct{}
	change Change
	err    error
}

// Done is closed when its slots are there, or when it has failed.
func (a *Asked) Done() <-chan struct{} { return a.done }

// Wait gives the slots of the view. It fails with *Refused, and the view before stays; with
// ErrSuperseded, if another view was watched and its slots came in their place; with ErrClosed; or
// with the context.
func (a *Asked) Wait(ctx context.Context) (Change, error) {
	select {
	case <-a.done:
		return a.change, a.err
	case <-ctx.Done():
		return Change{}, ctx.Err()
	}
}

// come ends what was asked for with slots that came.
func (a *Asked) come(change Change) {
	if a.only == nil || isSameView(a.only, change.View) {
		a.end(change, nil)
	} else {
		a.end(Change{}, ErrSuperseded)
	}
}

func (a *Asked) end(change Change, err error) {
	a.change, a.err = change, err
	close(a.done)
}

// Board is a room, seen through a view. Its methods may be called from any goroutine.
type Board struct {
	options Options
	cancel  context.CancelFunc
	teller  teller

	lock             sync.Mutex
	session          *session
	overlay          overlay
	latest           *Change // nil before the first slots
	waiters          []*Asked
	asked            int
	isAsking         bool // for slots, to see whether they have all that was done
	undoing, redoing []Patch
	stepping         sync.Mutex // held by the undo or redo that is made
	quiet            []chan struct{}
	readers          map[chan Change]struct{}
	closedBy         error
	closed           chan struct{}
}

// ConnectBy enters a room by connections of another kind, and comes back to it until the context is
// done or the board is closed. It fails if JSON cannot say the document to begin with. If it is to
// be ReadOnly, they have to lead to the room's WatchAddress.
func ConnectBy(ctx context.Context, dial Dial, view []Shown, options Options) (*Board, error) {
	begin, err := beginning(options.Begin)
	if err != nil {
		return nil, err
	}
	if options.ReadOnly {
		begin = nil
	}
	if options.FirstWait == 0 {
		options.FirstWait = 200 * time.Millisecond
	}
	if options.LongestWait == 0 {
		options.LongestWait = 10 * time.Second
	}
	ctx, cancel := context.WithCancel(ctx)
	b := &Board{options: options, cancel: cancel, closed: make(chan struct{})}
	b.readers = map[chan Change]struct{}{}
	b.session = &session{dial: dial, options: options, begin: begin, hearer: (*told)(b), lock: &b.lock}
	b.session.wanted, b.session.present = &asking{view: view}, &held{view: view}
	go b.session.run(ctx)
	go func() {
		<-ctx.Done()
		b.Close()
	}()
	return b, nil
}

// WatchAddress is the address by which a room is entered only to watch it.
func WatchAddress(url string) string { return url + "/watch" }

func beginning(document any) (Patch, error) {
	if document == nil {
		return nil, nil
	}
	return Patch{Test("", nil), Add("", document)}.checked()
}

// Close leaves the room.
func (b *Board) Close() {
	b.lock.Lock()
	defer b.lock.Unlock()
	b.session.end(nil)
}

// Ready waits for the first slots. It fails with the refusal of the view, and with ErrClosed.
func (b *Board) Ready(ctx context.Context) (Change, error) {
	b.lock.Lock()
	if b.latest != nil {
		defer b.lock.Unlock()
		return *b.latest, nil
	}
	first := b.wait(0, nil)
	b.lock.Unlock()
	return first.Wait(ctx)
}

// Shown is what is shown, and false before the first slots.
func (b *Board) Shown() (Change, bool) {
	b.lock.Lock()
	defer b.lock.Unlock()
	if b.latest == nil {
		return Change{}, false
	}
	return *b.latest, true
}

// State is how the board is connected.
func (b *Board) State() State {
	b.lock.Lock()
	defer b.lock.Unlock()
	return b.session.state
}

// Done is closed when the board is.
func (b *Board) Done() <-chan struct{} { return b.closed }

// Err is what closed the board, if something did.
func (b *Board) Err() error {
	b.lock.Lock()
	defer b.lock.Unlock()
	return b.closedBy
}

// Changes gives what is shown, and then each change until the context is done or the board is
// closed. A reader that is slow misses those between, and never the newest one.
func (b *Board) Changes(ctx context.Context) <-chan Change {
	changes := make(chan Change, 1)
	b.lock.Lock()
	defer b.lock.Unlock()
	if b.latest != nil {
		changes <- *b.latest
	}
	b.readers[changes] = struct{}{}
	go func() {
		select {
		case <-ctx.Done():
		case <-b.closed:
		}
		b.lock.Lock()
		defer b.lock.Unlock()
		delete(b.readers, changes)
		close(changes)
	}()
	return changes
}

// Watch shows another view from now on, and waits for its slots as Asked.Wait does.
func (b *Board) Watch(ctx context.Context, view []Shown) (Change, error) {
	return b.Ask(view).Wait(ctx)
}

// Ask shows another view from now on, and does not wait.
func (b *Board) Ask(view []Shown) *Asked {
	b.lock.Lock()
	defer b.lock.Unlock()
	own := append([]Shown{}, view...)
	return b.ask(own, own)
}

func (b *Board) ask(view, only []Shown) *Asked {
	b.asked++
	asked := b.wait(b.asked, only)
	b.session.watch(b.asked, view)
	return asked
}

// askAgain asks for the slots of the view that is wanted, or of a later one.
func (b *Board) askAgain() *Asked {
	return b.ask(b.session.wanted.view, nil)
}

// Sync gives slots that have every edit which was accepted before. It costs a snapshot.
func (b *Board) Sync(ctx context.Context) (Change, error) {
	b.lock.Lock()
	asked := b.askAgain()
	b.lock.Unlock()
	return asked.Wait(ctx)
}

func (b *Board) wait(number int, only []Shown) *Asked {
	asked := &Asked{number: number, only: only, done: make(chan struct{})}
	if b.session.state == Closed {
		asked.end(Change{}, b.whyClosed())
	} else {
		b.waiters = append(b.waiters, asked)
	}
	return asked
}

// Edit edits the document, all of it or nothing, and waits for the answer as Answer.Wait does.
func (b *Board) Edit(ctx context.Context, patch Patch, options ...EditOption) (Revision, error) {
	answer, err := b.Send(patch, options...)
	if err != nil {
		return Revision{}, err
	}
	return answer.Wait(ctx)
}

// Send asks for an edit, and does not wait. At most 31 requests are on their way at once: others
// wait here, also for a connection, and are sent in order. It fails for a value that JSON cannot
// say or the relay does not take.
func (b *Board) Send(patch Patch, options ...EditOption) (*Answer, error) {
	own, err := patch.checked()
	if err != nil {
		return nil, err
	}
	one := &edit{patch: own, ended: make(chan struct{})}
	if one.err = b.mayEdit(); one.err != nil {
		close(one.ended)
		return &Answer{one}, nil
	}
	for _, option := range options {
		option(one)
	}
	b.lock.Lock()
	defer b.lock.Unlock()
	if one.base != nil && one.base.Epoch == 0 && b.latest != nil {
		one.base.Epoch = b.session.present.Epoch
	}
	b.overlay = append(b.overlay, one)
	// A change shows it before another one tells what became of it, which may be at once.
	if one.isOptimistic && b.session.takes(one) {
		b.publish(nil)
	}
	b.session.ask(one.request(b.session))
	return &Answer{one}, nil
}

// End ends the room: it replaces the whole document by null. That is an edit with a base, the
// revision of what is shown, so it is refused, as stale, if anybody edited since. It fails with
// ErrNotShown before the first slots. Once everybody has left, the room makes place for a new name
// if the relay has no other.
func (b *Board) End() (*Answer, error) {
	seen, isThere := b.Shown()
	if !isThere && !b.options.ReadOnly {
		return nil, ErrNotShown
	}
	return b.Send(Patch{Replace("", nil)}, On(seen.Revision))
}

func (b *Board) mayEdit() error {
	if b.options.ReadOnly {
		return &Refused{Fault: "read-only"}
	}
	return nil
}

// publish tells what is shown now. It is called with the lock held, as all that follows.
func (b *Board) publish(patch Patch) {
	present := b.session.present
	if present.slots == nil {
		return
	}
	b.latest = &Change{
		Slots: b.overlay.shown(present), Confirmed: present.slots, View: present.view,
		Revision: present.Revision, Pending: b.overlay.pending(), Patch: patch,
	}
	change := *b.latest
	if b.options.OnChange != nil {
		b.teller.tell(func() { b.options.OnChange(change) })
	}
	for changes := range b.readers {
		select {
		case <-changes: // one that was missed
		default:
		}
		changes <- change
	}
}

func (b *Board) whyClosed() error {
	if b.closedBy != nil {
		return b.closedBy
	}
	return ErrClosed
}

// settle waits no more for edits that are done and may touch no slot.
func (b *Board) settle() {
	present := b.session.present
	if present.slots == nil {
		return
	}
	before := b.overlay.pending()
	b.overlay.take(present.shows)
	if b.overlay.settle(present) && !b.isAsking && b.session.state == Open {
		b.isAsking = true
		b.askAgain()
	}
	if b.overlay.pending() != before {
		b.publish(nil)
	}
	b.becomeQuiet()
}

func (b *Board) becomeQuiet() {
	if len(b.overlay) > 0 && b.session.state != Closed {
		return
	}
	for _, one := range b.quiet {
		close(one)
	}
	b.quiet = nil
}

func (b *Board) record(one *edit, back Patch) {
	switch {
	case back == nil || one.role == notUndone:
	case one.role == undone:
		b.redoing = newest(append(b.redoing, back))
	case one.role == redone:
		b.undoing = newest(append(b.undoing, back))
	default:
		b.undoing, b.redoing = newest(append(b.undoing, back)), nil
	}
}

func newest(patches []Patch) []Patch {
	if len(patches) > kept {
		return patches[1:]
	}
	return patches
}
