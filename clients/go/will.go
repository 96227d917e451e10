package relay

import "context"

// A will is what the relay is to do when this session ends (docs/PROTOCOL.md, "Wills"). It goes
// with its session, so each connection leaves it again. It waits for its answer over as many as it
// takes.
type will struct {
	patch Patch
	err   error
	ended chan struct{}
}

func (w *will) request(session *session) *request {
	one := &request{members: map[string]any{"do": "will", "patch": w.patch}, will: w}
	one.answered = func(reply *message) {
		if reply.Kind != "willing" {
			w.end(reply.refusal())
			return
		}
		session.left, session.isLeft = one, true
		w.end(nil)
	}
	return one
}

// end tells once what became of it: it is left again.
func (w *will) end(err error) {
	select {
	case <-w.ended:
	default:
		w.err = err
		close(w.ended)
	}
}

// Willing is what a will that was asked for will come to.
type Willing struct{ will *will }

// Done is closed when there is an answer.
func (w *Willing) Done() <-chan struct{} { return w.will.ended }

// Wait comes back when the relay has the will. It fails with *Refused, and the will before stays;
// with ErrClosed; or with the context.
func (w *Willing) Wait(ctx context.Context) error {
	select {
	case <-w.will.ended:
		return w.will.err
	case <-ctx.Done():
		return ctx.Err()
	}
}

// Will leaves a will and waits until the relay has it, as Willing.Wait does. A will is a patch that
// the relay does when this session ends, however it ends: by Close, by the end of the program, or
// by a lost connection. It is done as an edit without a base that nobody is answered: if it is
// refused, nothing happens. A later will replaces it, and an empty patch withdraws it.
//
// Each new connection leaves it again, before the edits that wait. The session that was lost has
// done its own by then, or does it once the relay finds out: so guard by a Test what a later
// session may have written anew. A relay that knows no wills refuses it, as shape.
func (b *Board) Will(ctx context.Context, patch Patch) error {
	willing, err := b.SendWill(patch)
	if err != nil {
		return err
	}
	return willing.Wait(ctx)
}

// SendWill asks for a will, and does not wait: also for a connection it waits here. It fails for a
// value that JSON cannot say or the relay does not take.
func (b *Board) SendWill(patch Patch) (*Willing, error) {
	own, err := patch.checked()
	if err != nil {
		return nil, err
	}
	one := &will{patch: own, ended: make(chan struct{})}
	if err := b.mayEdit(); err != nil {
		one.end(err)
		return &Willing{one}, nil
	}
	b.lock.Lock()
	defer b.lock.Unlock()
	b.session.ask(one.request(b.session))
	return &Willing{one}, nil
}
