package relay

import (
	"context"
	"errors"
	"fmt"
	"net"
	"net/http"
	"net/url"
	"regexp"
	"sync"
	"time"

	"github.com/gorilla/websocket"
)

// keepalive says how a peer that is gone without a word is found out.
type keepalive struct {
	quiet time.Duration // between two pings
	// A connection on which no byte comes for so long is dead. One on which bytes come is not, as slow
	// as it may be: a pong waits behind them.
	silence time.Duration
	// But if no pong comes for so long, it is dead in the direction of the pings.
	unanswered time.Duration
}

var usual = keepalive{
	quiet: 20 * time.Second, silence: 40 * time.Second, unanswered: 16 * time.Minute,
}

var room = regexp.MustCompile(`^wss?://[^/?#]+/([^?#]*/)?rooms/[A-Za-z0-9_-]{1,64}$`)

// Connect enters a room, as ws://127.0.0.1:8080/rooms/board, and comes back to it until the context
// is done or the board is closed. It fails if the address is none of a room, and as ConnectBy does.
func Connect(ctx context.Context, address string, view []Shown, options Options) (*Board, error) {
	shown := shownAddress(address)
	if watched.MatchString(address) && !room.MatchString(address) {
		return nil, fmt.Errorf("relay: leave out `/watch`, and use Options.ReadOnly: %q", shown)
	}
	if _, err := url.Parse(address); err != nil || !room.MatchString(address) {
		return nil, fmt.Errorf("relay: not the address of a room: %q", shown)
	}
	if options.ReadOnly {
		address = WatchAddress(address)
	}
	return ConnectBy(ctx, WebSocket(address), view, options)
}

// WebSocket makes connections to an address, as Connect does.
func WebSocket(address string) Dial {
	return func(ctx context.Context) (Socket, error) { return open(ctx, address, usual) }
}

// line is a connection that fails once it is dead. Its reader sets both times.
type line struct {
	net.Conn
	keepalive
	dead time.Time // if no pong comes before
}

func (l *line) pong() { l.dead = time.Now().Add(l.unanswered) }

func (l *line) Read(into []byte) (int, error) {
	until := time.Now().Add(l.silence)
	if l.dead.Before(until) {
		until = l.dead
	}
	if err := l.SetReadDeadline(until); err != nil {
		return 0, err
	}
	return l.Conn.Read(into)
}

type webSocket struct {
	conn   *websocket.Conn
	alive  keepalive
	texts  chan string // has room for all that may be on the way
	closed chan struct{}
	once   sync.Once
}

func open(ctx context.Context, address string, alive keepalive) (Socket, error) {
	failed := &HandshakeFailed{URL: shownAddress(address)}
	target, head, err := apart(address)
	if err != nil {
		failed.Err = err
		return nil, failed
	}
	var below *line
	dialer := *websocket.DefaultDialer
	dialer.NetDialContext = func(ctx context.Context, network, address string) (net.Conn, error) {
		conn, err := new(net.Dialer).DialContext(ctx, network, address)
		if err != nil {
			return nil, err
		}
		below = &line{Conn: conn, keepalive: alive}
		below.pong()
		return below, nil
	}
	conn, answer, err := dialer.DialContext(ctx, target, head)
	if err != nil {
		failed.Err = err
		if answer != nil {
			failed.Status = answer.StatusCode
		}
		return nil, failed
	}
	conn.SetPongHandler(func(string) error { below.pong(); return nil })
	socket := &webSocket{conn: conn, alive: alive, closed: make(chan struct{})}
	socket.texts = make(chan string, onTheWay)
	go socket.write()
	return socket, nil
}

// apart gives the address without a name and a password, which the library does not take, and the
// head that has them.
func apart(address string) (string, http.Header, error) {
	parts, err := url.Parse(address)
	if err != nil {
		return "", nil, errors.New("no address") // what the library says of it has the password
	}
	asked := http.Request{Header: http.Header{}}
	if parts.User != nil {
		password, _ := parts.User.Password()
		asked.SetBasicAuth(parts.User.Username(), password)
		parts.User = nil
	}
	return parts.String(), asked.Header, nil
}

func (s *webSocket) Read() (string, error) {
	_, text, err := s.conn.ReadMessage()
	return string(text), err
}

func (s *webSocket) Write(text string) {
	select {
	case s.texts <- text:
	case <-s.closed:
	}
}

func (s *webSocket) Close() {
	s.once.Do(func() {
		close(s.closed)
		s.conn.Close()
	})
}

func (s *webSocket) write() {
	defer s.Close()
	ticker := time.NewTicker(s.alive.quiet)
	defer ticker.Stop()
	for {
		var err error
		select {
		case text := <-s.texts:
			err = s.conn.WriteMessage(websocket.TextMessage, []byte(text))
		case <-ticker.C:
			err = s.conn.WriteControl(websocket.PingMessage, nil, time.Now().Add(s.alive.silence))
		case <-s.closed:
			return
		}
		if err != nil {
			return
		}
	}
}
