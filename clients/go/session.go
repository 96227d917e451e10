package relay

import (
	"context"
	"math/rand"
	"sync"
	"time"
)

// With one request more on the way 32 replies could wait, and the relay would read nothing from
// this client until it drew one.
const onTheWay = 31

// The messages that answer a request if it is not refused, by what it does.
var replies = map[any]string{
	"edit": "done", "watch": "watching", "resume": "resumed", "will": "willing",
}

// Bytes of a text. A longer one ends its connection without an answer, each time that it is sent.
const longest = 1056768

// Socket is a connection. Write does not wait for the peer: a client that does does not read.
type Socket interface {
	Read() (string, error)
	Write(text string)
	Close()
}

// Dial makes a connection to a room. If the handshake is answered, it fails with a *HandshakeFailed
// that has the address and the status: by these a board knows a 404 that is final.
type Dial func(ctx context.Context) (Socket, error)

// State is how a board is connected.
type State string

const (
	Connecting State = "connecting" // the slots are on their way, or soon will be
	Open       State = "open"       // the slots are those of the relay, but for what is on its way
	Waiting    State = "waiting"    // the connection was lost, and the next try comes after a while
	Closed     State = "closed"
)

type message struct {
	Kind, Fault, How string
	ID               *int64
	Epoch, Rev       int64
	At               *int64
	View             []any // of a snapshot: the slots
	Patch            []wire
}

func (m *message) refusal() *Refused {
	refused := &Refused{Fault: m.Fault, At: m.At}
	if m.Fault == "stale" {
		refused.Rev = &m.Rev
	}
	return refused
}

// A view that was asked for, each time another one.
type asking struct {
	number int
	view   []Shown
}

type request struct {
	id       int64
	members  map[string]any
	edit     *edit // nil if it is none
	will     *will // nil if it is none: what is neither is of one connection
	answered func(*message)
}

// goesTo says whether it goes to the run of this connection. Else it has ended.
func (r *request) goesTo(s *session) bool { return r.will != nil || r.edit.goesTo(s, s.welcome) }

// isSentAgain says whether it is when its connection was lost. A will that was taken is left again
// anyhow.
func (r *request) isSentAgain(s *session) bool {
	if r.will != nil {
		return r != s.left
	}
	return r.edit != nil && r.edit.isSentAgain(s)
}

func (r *request) drop(s *session) {
	if r.will != nil {
		r.will.end(ErrClosed)
	} else {
		r.edit.drop(s)
	}
}

// held is what the relay has shown.
type held struct {
	of    *asking // nil if it cannot be resumed
	view  []Shown
	slots []Slot // nil before the first snapshot
	Revision
}

// A hearer is told of a session, with the lock held.
type hearer interface {
	// held tells that something else is held: by a patch, of one revision if it is single.
	held(before, now *held, patch Patch, single bool)
	// missedNothing tells that after a loss nothing was missed.
	missedNothing()
	entered(state State, cause error)
	// shown tells that the slots of a watch or of a later one are there, or that it was refused.
	shown(number int, cause *Refused)
	ended(one *edit)
}

// A session is a room's slots, kept right over connections that are lost and runs of the relay that
// end (docs/PROTOCOL.md, "What a client does"). Each call but run and locked is made with the lock.
type session struct {
	dial    Dial
	options Options
	begin   Patch // gives the room its document; nil if nothing does
	hearer  hearer

	lock     *sync.Mutex
	state    State
	present  *held
	wanted   *asking  // the newest
	asked    *asking  // what this connection was asked for last
	taken    *asking  // what the newest `watching` or `resumed` of this connection answers
	resumed  bool     // by a patch, which comes next
	welcome  *message // of this connection
	begun    bool     // the room was given its document on this connection, or had one
	left     *request // the will that the relay took last
	isLeft   bool     // on this connection
	away     bool     // a connection was lost, and no other one is there
	socket   Socket
	unsent   []*request
	sent     []*request // without a reply, oldest first
	ids      int64
	failures int
	entered  bool // by any connection
}

func (s *session) run(ctx context.Context) {
	for ctx.Err() == nil {
		s.lock.Lock()
		s.enter(Connecting, nil)
		s.lock.Unlock()
		socket, err := s.dial(ctx)
		if err == nil {
			s.serve(socket)
		}
		if isNoRoom(err, s.options.ReadOnly) && s.neverEntered(err) {
			return
		}
		select {
		case <-time.After(s.lost(err)):
		case <-ctx.Done():
		}
	}
}

// neverEntered ends a session that never entered its room. Once it did, a 404 may be the answer of
// a proxy that is being set up anew.
func (s *session) neverEntered(cause error) bool {
	s.lock.Lock()
	defer s.lock.Unlock()
	if s.entered {
		return false
	}
	s.end(cause)
	return true
}

// lost gives how long to wait for the next try.
func (s *session) lost(cause error) time.Duration {
	s.lock.Lock()
	defer s.lock.Unlock()
	s.enter(Waiting, cause)
	wait := s.options.FirstWait
	for i := 0; i < s.failures && wait < s.options.LongestWait; i++ {
		wait *= 2
	}
	if wait > s.options.LongestWait {
		wait = s.options.LongestWait
	}
	s.failures++
	return wait/2 + time.Duration(rand.Int63n(int64(wait/2)+1))
}

// serve reads until the connection is lost.
func (s *session) serve(socket Socket) {
	defer socket.Close()
	s.lock.Lock()
	s.socket = socket
	closed := s.state == Closed
	s.lock.Unlock()
	for !closed {
		text, err := socket.Read()
		if err != nil || !s.hear(text) {
			break
		}
	}
	s.lock.Lock()
	defer s.lock.Unlock()
	s.leave()
}

// leave ends a connection: what was sent has no reply any more, and only edits wait for the next.
func (s *session) leave() {
	sent, unsent := s.sent, s.unsent
	s.away = s.away || s.welcome != nil
	s.socket, s.welcome, s.asked, s.taken, s.sent, s.unsent = nil, nil, nil, nil, nil, nil
	s.begun, s.resumed = false, false
	s.isLeft = false
	for _, one := range sent {
		if one.isSentAgain(s) {
			s.unsent = append(s.unsent, one)
		}
	}
	for _, one := range unsent {
		s.ask(one)
	}
}

// end closes the session.
func (s *session) end(cause error) {
	if s.state == Closed {
		return
	}
	s.enter(Closed, cause)
	if s.socket != nil {
		s.socket.Close()
	}
	s.leave()
	unsent := s.unsent
	s.unsent = nil
	for _, one := range unsent {
		one.drop(s)
	}
}

func (s *session) watch(number int, view []Shown) {
	s.wanted = &asking{number, view}
	s.proceed()
}

// ask has an edit or a will wait to be sent.
func (s *session) ask(one *request) {
	switch {
	case s.state == Closed:
		one.drop(s)
	case one.will != nil || s.takes(one.edit):
		s.unsent = append(s.unsent, one)
		s.proceed()
	default:
		s.fail(one.edit, &Refused{Fault: "away"})
	}
}

// takes says whether an edit may wait to be sent; else it fails as soon as it is asked for.
func (s *session) takes(one *edit) bool {
	return s.state != Closed && (!s.away || !s.options.GuardedOnly || one.isGuarded())
}

func (s *session) fail(one *edit, err error) {
	one.err = err
	s.hearer.ended(one)
}

// proceed sends what there is to send: what begins the room, then what asks for the slots, then the
// will that each connection leaves again, then what waits.
func (s *session) proceed() {
	for s.welcome != nil && len(s.sent) < onTheWay {
		switch {
		case s.begin != nil && !s.begun:
			s.begun = true
			s.send(s.beginning())
		case s.asked != s.wanted:
			s.send(s.askForSlots())
		case s.left != nil && !s.isLeft:
			s.isLeft = true
			s.send(s.left)
		case len(s.unsent) > 0:
			one := s.unsent[0]
			s.unsent = s.unsent[1:]
			if one.goesTo(s) {
				s.send(one)
			}
		default:
			return
		}
	}
}

func (s *session) send(one *request) {
	one.id, one.members["id"] = s.ids+1, s.ids+1
	text, err := textOf(one.members)
	if err != nil || len(text) > longest {
		one.answered(&message{Kind: "refused", Fault: "too-long"}) // as the relay refuses it
		return
	}
	s.ids++
	s.sent = append(s.sent, one)
	s.socket.Write(string(text))
}

// beginning is the first request of a connection. A room that has a document refuses the test.
func (s *session) beginning() *request {
	members := map[string]any{"do": "edit", "patch": s.begin}
	return &request{members: members, answered: func(reply *message) {
		if reply.Kind == "refused" && reply.Fault != "test-failed" {
			s.end(reply.refusal())
		}
	}}
}

// askForSlots goes on where the slots are, if they are those of the view that is wanted, and this
// connection asks for the first time.
func (s *session) askForSlots() *request {
	wanted := s.wanted
	if s.asked == nil && s.present.of == wanted {
		s.asked = wanted
		return s.resume(wanted)
	}
	s.asked = wanted
	members := map[string]any{"do": "watch", "view": wanted.view}
	return &request{members: members, answered: func(reply *message) {
		if reply.Kind == "watching" {
			s.taken = wanted
		} else {
			s.refuse(wanted, reply.refusal())
		}
	}}
}

func (s *session) resume(wanted *asking) *request {
	members := map[string]any{"do": "resume", "view": wanted.view}
	members["rev"], members["epoch"] = s.present.Rev, s.present.Epoch
	return &request{members: members, answered: func(reply *message) {
		if reply.Kind != "resumed" {
			// `future`: the epoch was given twice, and the slots are of the other run.
			s.astray()
			s.asked = nil
			return
		}
		s.taken = wanted
		s.resumed = reply.How == "patch"
		if reply.How == "nothing" {
			s.hearer.missedNothing()
			s.enter(Open, nil)
		}
	}}
}

// refuse keeps the view before one that the relay does not take. Without any the session ends.
func (s *session) refuse(refused *asking, cause *Refused) {
	s.hearer.shown(refused.number, cause)
	switch {
	case s.wanted != refused:
	case s.present.slots == nil:
		s.end(cause)
	case s.taken != nil:
		s.wanted, s.asked = s.taken, s.taken
	default:
		s.wanted = &asking{refused.number, s.present.view}
	}
}

// astray has the next connection ask for the slots anew: those held may be wrong.
func (s *session) astray() {
	anew := *s.present
	anew.of = nil
	s.present = &anew
}

// hear gives whether the connection goes on.
func (s *session) hear(text string) bool {
	s.lock.Lock()
	defer s.lock.Unlock()
	if s.state == Closed {
		return false
	}
	told := new(message)
	err := read(text, told)
	if err == nil {
		err = s.take(told)
	}
	if err != nil {
		s.astray()
		return false
	}
	s.proceed()
	return s.state != Closed
}

func (s *session) take(told *message) error {
	switch {
	case told.Kind == "welcome" && s.welcome == nil:
		s.welcome, s.away, s.failures = told, false, 0
		s.entered = true
		return nil
	case s.welcome == nil:
		return errAstray
	case told.Kind == "snapshot":
		return s.takeSnapshot(told)
	case told.Kind == "patch":
		return s.takePatch(told)
	}
	return s.answer(told)
}

// answer takes a reply. They come in the order of the requests; the id says so, if the relay could
// read it. None of another kind comes that was not asked for by something new.
func (s *session) answer(reply *message) error {
	if len(s.sent) == 0 || (reply.ID != nil && *reply.ID != s.sent[0].id) {
		return errAstray
	}
	if reply.Kind != "refused" && reply.Kind != replies[s.sent[0].members["do"]] {
		return errAstray
	}
	one := s.sent[0]
	s.sent = s.sent[1:]
	one.answered(reply)
	return nil
}

func (s *session) takeSnapshot(told *message) error {
	if s.taken == nil || len(told.View) != len(s.taken.view) {
		return errAstray
	}
	slots, err := slotsOf(told.View)
	if err == nil {
		at := Revision{told.Rev, s.welcome.Epoch}
		s.show(&held{s.taken, s.taken.view, slots, at}, nil)
	}
	return err
}

func (s *session) takePatch(told *message) error {
	if s.taken == nil || s.taken != s.present.of || told.Rev <= s.present.Rev {
		return errAstray
	}
	patch := patchOf(told.Patch)
	slots, err := patched(s.present.slots, patch)
	if err == nil {
		at := Revision{told.Rev, s.present.Epoch}
		s.show(&held{s.taken, s.taken.view, slots, at}, patch)
	}
	return err
}

// patched is the slots after a patch of a watcher, in which slot k stands at /k.
func patched(slots []Slot, patch Patch) ([]Slot, error) {
	whole := make([]any, len(slots))
	for i, slot := range slots {
		whole[i] = []any(slot)
	}
	after, err := applied(whole, patch)
	if err != nil {
		return nil, err
	}
	told, isList := after.([]any)
	if !isList || len(told) != len(slots) {
		return nil, errAstray
	}
	return slotsOf(told)
}

func (s *session) show(now *held, patch Patch) {
	before, single := s.present, patch != nil && !s.resumed
	s.present, s.resumed = now, false
	s.enter(Open, nil)
	s.hearer.held(before, now, patch, single)
	s.hearer.shown(now.of.number, nil)
}

func (s *session) enter(next State, cause error) {
	if s.state == next || s.state == Closed {
		return
	}
	s.state = next
	s.hearer.entered(next, cause)
}
