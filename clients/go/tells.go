package relay

import "sync"

// A teller calls functions one after the other, in a goroutine that lives while there are any. So
// they may call the board, and a slow one holds up the others alone.
type teller struct {
	lock   sync.Mutex
	untold []func()
	tells  bool
}

func (t *teller) tell(what func()) {
	t.lock.Lock()
	defer t.lock.Unlock()
	t.untold = append(t.untold, what)
	if !t.tells {
		t.tells = true
		go t.run()
	}
}

func (t *teller) run() {
	for {
		t.lock.Lock()
		if len(t.untold) == 0 {
			t.tells = false
			t.lock.Unlock()
			return
		}
		next := t.untold[0]
		t.untold = t.untold[1:]
		t.lock.Unlock()
		next()
	}
}
