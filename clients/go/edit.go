package relay

import "context"

// Revision is one of a room, in one run of the relay.
type Revision struct{ Rev, Epoch int64 }

// EditOption says how an edit is made.
type EditOption func(*edit)

// Optimistic has an edit show at once. It is taken back if it fails.
func Optimistic(e *edit) { e.isOptimistic = true }

// WithoutUndo has Undo pass an edit over.
func WithoutUndo(e *edit) { e.role = notUndone }

// On has an edit done at one revision alone, as Change.Revision is of what was seen. Without an
// epoch it is of the run of the slots. If its answer is lost it is sent again, and is never done
// twice.
func On(base Revision) EditOption { return func(e *edit) { e.base = &base } }

type role int

const (
	edited role = iota
	undone
	redone
	notUndone
)

// One that ends its connection each time has to come to an end.
const sendings = 5

// An edit, until the slots show it. One with a base belongs to one run of the relay, and is sent to
// it again if its answer was lost: revisions only rise, so of all edits with one base at most one
// is done.
type edit struct {
	patch        Patch
	base         *Revision // its epoch is 0 until the edit is sent, if none was known
	isOptimistic bool
	role         role
	sendings     int
	rev          int64 // that it made; 0 if it was not done yet
	run          int64 // the epoch to which it was sent last
	err          error // why it failed
	ended        chan struct{}
}

func (e *edit) request(session *session) *request {
	members := map[string]any{"do": "edit", "patch": e.patch}
	if e.base != nil {
		members["base"] = e.base.Rev
	}
	return &request{members: members, edit: e, answered: func(reply *message) {
		if reply.Kind == "done" {
			e.rev = reply.Rev
			session.hearer.ended(e)
			return
		}
		if refused := reply.refusal(); refused.Fault == "stale" && e.sendings > 1 {
			session.fail(e, &Unknown{refused.Rev}) // it was done the first time, or it is not
		} else {
			session.fail(e, refused)
		}
	}}
}

func (e *edit) isGuarded() bool { return e.base != nil || e.patch.isGuarded() }

// goesTo says before each sending whether it goes to that run. Else it has ended.
func (e *edit) goesTo(session *session, welcome *message) bool {
	e.run = welcome.Epoch
	if e.base != nil && e.base.Epoch == 0 {
		e.base.Epoch = e.run
	}
	if e.base == nil || e.base.Epoch == e.run {
		e.sendings++
		return true
	}
	if e.sendings > 0 {
		session.fail(e, &Unknown{})
	} else {
		session.fail(e, &Refused{Fault: "stale", Rev: &welcome.Rev})
	}
	return false
}

// isSentAgain says of one whose connection was lost whether it is. Else it has ended.
func (e *edit) isSentAgain(session *session) bool {
	again := e.base != nil && e.sendings < sendings
	if !again {
		session.fail(e, &Unknown{})
	}
	return again
}

func (e *edit) drop(session *session) {
	if e.sendings > 0 {
		session.fail(e, &Unknown{})
	} else {
		session.fail(e, ErrClosed)
	}
}

// Answer is what an edit will come to.
type Answer struct{ edit *edit }

// Done is closed when there is an answer.
func (a *Answer) Done() <-chan struct{} { return a.edit.ended }

// Wait gives the revision that the edit made, which the slots may still be on their way to. It
// fails with *Refused, with *Unknown, with ErrClosed, or with the context: then the edit is still
// done or refused.
func (a *Answer) Wait(ctx context.Context) (Revision, error) {
	select {
	case <-a.edit.ended:
		return Revision{a.edit.rev, a.edit.run}, a.edit.err
	case <-ctx.Done():
		return Revision{}, ctx.Err()
	}
}
