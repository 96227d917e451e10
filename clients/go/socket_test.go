package relay

import (
	"context"
	"encoding/json"
	"errors"
	"fmt"
	"net"
	"net/http"
	"net/http/httptest"
	"strings"
	"sync/atomic"
	"testing"
	"time"

	"github.com/gorilla/websocket"
)

// The times of a connection, scaled.
var scaled = keepalive{
	quiet:      50 * time.Millisecond,
	silence:    200 * time.Millisecond,
	unanswered: 3 * time.Second,
}

// slowListener has connections that send 4 KiB in ten milliseconds.
type slowListener struct{ net.Listener }
type slowConn struct{ net.Conn }

func (l slowListener) Accept() (net.Conn, error) {
	conn, err := l.Listener.Accept()
	return slowConn{conn}, err
}

func (c slowConn) Write(bytes []byte) (int, error) {
	written := 0
	for written < len(bytes) {
		end := written + 4096
		if end > len(bytes) {
			end = len(bytes)
		}
		time.Sleep(10 * time.Millisecond)
		n, err := c.Conn.Write(bytes[written:end])
		written += n
		if err != nil {
			return written, err
		}
	}
	return written, nil
}

// dialSlowly opens a socket to a relay that is played.
func dialSlowly(t *testing.T, alive keepalive, play func(*websocket.Conn)) Socket {
	upgrader := websocket.Upgrader{}
	upgraded := func(to http.ResponseWriter, request *http.Request) {
		conn, err := upgrader.Upgrade(to, request, nil)
		if err != nil {
			return
		}
		defer conn.Close()
		play(conn)
	}
	server := httptest.NewUnstartedServer(http.HandlerFunc(upgraded))
	server.Listener = slowListener{server.Listener}
	server.Start()
	t.Cleanup(server.Close)
	socket, err := open(context.Background(), "ws"+strings.TrimPrefix(server.URL, "http"), alive)
	if err != nil {
		t.Fatal(err)
	}
	t.Cleanup(socket.Close)
	return socket
}

func TestATextThatTakesLongerThanASilenceArrives(t *testing.T) {
	long := strings.Repeat("x", 400_000) // a second
	socket := dialSlowly(t, scaled, func(conn *websocket.Conn) {
		go conn.ReadMessage() // answers pings
		conn.WriteMessage(websocket.TextMessage, []byte(long))
		time.Sleep(time.Second)
	})
	if text, err := socket.Read(); err != nil || text != long {
		t.Errorf("%d bytes came: %v", len(text), err)
	}
}

func TestAQuietConnectionStaysWhilePingsAreAnswered(t *testing.T) {
	socket := dialSlowly(t, scaled, func(conn *websocket.Conn) {
		go func() {
			time.Sleep(4 * scaled.silence)
			conn.WriteMessage(websocket.TextMessage, []byte("late"))
		}()
		conn.ReadMessage()
	})
	if text, err := socket.Read(); text != "late" {
		t.Errorf("%q: %v", text, err)
	}
}

func TestAConnectionOnWhichNothingComesIsGivenUp(t *testing.T) {
	socket := dialSlowly(t, scaled, func(conn *websocket.Conn) { time.Sleep(2 * time.Second) })
	if lasted := lasts(socket); lasted < scaled.silence/2 || lasted > 10*scaled.silence {
		t.Errorf("it lasts %v", lasted)
	}
}

func TestAConnectionThatIsDeadTowardsTheRelayIsGivenUpLater(t *testing.T) {
	alive := scaled
	alive.unanswered = 600 * time.Millisecond
	socket := dialSlowly(t, alive, func(conn *websocket.Conn) {
		for i := 0; i < 300; i++ { // and reads no ping
			if conn.WriteMessage(websocket.TextMessage, []byte("more")) != nil {
				return
			}
		}
	})
	if lasted := lasts(socket); lasted < alive.unanswered/2 || lasted > 2500*time.Millisecond {
		t.Errorf("it lasts %v", lasted)
	}
}

func lasts(socket Socket) time.Duration {
	began := time.Now()
	for {
		if _, err := socket.Read(); err != nil {
			return time.Since(began)
		}
	}
}

func TestWhoOnlyWatchesEntersByAnAddressOfItsOwn(t *testing.T) {
	targets := make(chan string, 9)
	refuse := func(to http.ResponseWriter, request *http.Request) {
		targets <- request.URL.Path
		http.NotFound(to, request)
	}
	server := httptest.NewServer(http.HandlerFunc(refuse))
	t.Cleanup(server.Close)
	url := "ws" + strings.TrimPrefix(server.URL, "http") + "/rooms/demo"
	for target, options := range map[string]Options{
		"/rooms/demo": {}, "/rooms/demo/watch": {ReadOnly: true},
	} {
		board, err := Connect(context.Background(), url, View(""), options)
		if err != nil {
			t.Fatal(err)
		}
		if told := <-targets; told != target {
			t.Errorf("it asks for %s, and not %s", told, target)
		}
		board.Close()
	}
}

func TestAnAddressToWatchByIsRefusedWithAdvice(t *testing.T) {
	address := "ws://127.0.0.1:1/rooms/demo/watch"
	_, err := Connect(context.Background(), address, View(""), Options{})
	if err == nil || !strings.Contains(err.Error(), "leave out `/watch`, and use Options.ReadOnly") {
		t.Error(err)
	}
	asked := HandshakeFailed{URL: "ws://h/rooms/demo?a=b", Status: 404}
	if !strings.HasSuffix(asked.Error(), "with 404: leave out the `?` and what follows") {
		t.Error(asked.Error())
	}
}

// refusing is the address of a relay that answers so many handshakes with 404, and then shows 5.
func refusing(t *testing.T, count int32) string {
	upgrader, asked := websocket.Upgrader{}, int32(0)
	server := httptest.NewServer(http.HandlerFunc(func(to http.ResponseWriter, from *http.Request) {
		if atomic.AddInt32(&asked, 1) <= count {
			http.NotFound(to, from)
			return
		}
		conn, err := upgrader.Upgrade(to, from, nil)
		if err != nil {
			return
		}
		defer conn.Close()
		say := func(text string) { conn.WriteMessage(websocket.TextMessage, []byte(text)) }
		say(`{"kind":"welcome","epoch":7,"rev":1}`)
		conn.ReadMessage() // what watches
		say(`{"kind":"watching","id":1}`)
		say(`{"kind":"snapshot","rev":1,"view":[[5]]}`)
		conn.ReadMessage()
	}))
	t.Cleanup(server.Close)
	return "ws" + strings.TrimPrefix(server.URL, "http")
}

// watching is a board that only watches, and what it is told of states.
func watching(t *testing.T, dial Dial, wait time.Duration) (*Board, chan State, chan error) {
	states, causes := make(chan State, 99), make(chan error, 99)
	options := Options{ReadOnly: true, FirstWait: wait, LongestWait: 2 * wait}
	options.OnState = func(state State, cause error) {
		states <- state
		if cause != nil {
			causes <- cause
		}
	}
	board, err := ConnectBy(context.Background(), dial, View("/n"), options)
	if err != nil {
		t.Fatal(err)
	}
	t.Cleanup(board.Close)
	return board, states, causes
}

func TestWhoOnlyWatchesWaitsUntilTheRoomIsThere(t *testing.T) {
	advice := "there is no room of this name yet, or what answers there has no rooms, or is the " +
		"--admin port"
	for _, path := range []string{"/rooms/a/watch", "/b/rooms/a/watch"} {
		address := refusing(t, 3) + path
		board, states, causes := watching(t, WebSocket(address), time.Millisecond)
		seen, err := board.Ready(soon(t))
		if err != nil || string(seen.Slots[0][0].(json.Number)) != "5" {
			t.Fatal(seen, err)
		}
		for _, wanted := range []State{
			Connecting, Waiting, Connecting, Waiting, Connecting, Waiting, Connecting, Open,
		} {
			if state := <-states; state != wanted {
				t.Errorf("%s, and not %s", state, wanted)
			}
		}
		wanted := "relay: " + address + " refuses the connection, with 404: " + advice
		if cause := <-causes; cause.Error() != wanted {
			t.Errorf("%v, and not %s", cause, wanted)
		}
	}
}

func TestItsPausesAreThoseOfALostConnection(t *testing.T) {
	address, begun := refusing(t, 8), time.Now()
	board, _, _ := watching(t, WebSocket(address+"/rooms/a/watch"), 20*time.Millisecond)
	if _, err := board.Ready(soon(t)); err != nil {
		t.Fatal(err)
	}
	// Of 20 and 7 of 40 ms each is half at least.
	if took := time.Since(begun); took < 150*time.Millisecond {
		t.Errorf("it took %v", took)
	}
}

func TestAnAddressThatOnlyWatchesMayBeWrongAsWell(t *testing.T) {
	address := refusing(t, 1)
	for _, target := range []string{"/rooms/a", "/rooms/a/watch?b=c", "/rooms/a/watch/", "/watch"} {
		board, _, _ := watching(t, WebSocket(address+target), time.Millisecond)
		_, err := board.Ready(soon(t))
		var failed *HandshakeFailed
		if !errors.As(err, &failed) || failed.Status != 404 || board.State() != Closed {
			t.Errorf("%s: %v", target, err)
		}
		address = refusing(t, 1)
	}
}

func TestEachStatusThatIsTriedAgainSaysItsOwnThing(t *testing.T) {
	for status, words := range map[int]string{
		200: ": what answers there has no rooms, or is the --admin port",
		401: ": the name or the password is missing or wrong",
		403: ": it lets no page of this origin in (--origin)",
		429: ": too many requests or connections of this address",
		502: "",
		503: ": it is full (--sessions, --rooms), --closed, or stopping",
	} {
		failed := HandshakeFailed{URL: "ws://h/rooms/a", Status: status}
		wanted := fmt.Sprintf("relay: ws://h/rooms/a refuses the connection, with %d%s", status, words)
		if failed.Error() != wanted {
			t.Errorf("%v, and not %s", failed.Error(), wanted)
		}
	}
	silent := HandshakeFailed{URL: "ws://h/rooms/a", Err: errors.New("refused")}
	wanted := "relay: nothing answers at ws://h/rooms/a: start the relay there, or check the " +
		"address, the port and --per-peer (refused)"
	if silent.Error() != wanted {
		t.Errorf("%v, and not %s", silent.Error(), wanted)
	}
	secure := HandshakeFailed{URL: "wss://h/rooms/a", Err: errors.New("refused")}
	wanted = "--per-peer, or take ws://: the relay itself has no TLS (refused)"
	if !strings.HasSuffix(secure.Error(), wanted) {
		t.Errorf("%v, and not %s", secure.Error(), wanted)
	}
}

func TestNoMessageHasThePasswordOfAnAddress(t *testing.T) {
	for address, shown := range map[string]string{
		"ws://anna:secret@127.0.0.1:1/rooms/a": "ws://anna:***@127.0.0.1:1/rooms/a",
		"wss://anna:s:cr@secret@h/rooms/a":     "wss://anna:***@h/rooms/a",
		"ws://anna:pa/secret@h/rooms/a":        "ws://anna:***@h/rooms/a",
		"ws://anna:secret@h/a":                 "ws://anna:***@h/a",
		"ws://secret@h:8080/rooms/a":           "ws://***@h:8080/rooms/a",
		"anna:secret@h/rooms/a":                "anna:***@h/rooms/a",
		"ws://h:8080/rooms/a":                  "ws://h:8080/rooms/a",
	} {
		failed := HandshakeFailed{URL: address, Status: 503}
		if !strings.HasPrefix(failed.Error(), "relay: "+shown+" refuses the connection") {
			t.Error(failed.Error())
		}
	}
	for _, address := range []string{"ws://anna:secret@h/a", "ws://anna:secret/a@h/rooms/a"} {
		_, err := Connect(context.Background(), address, View(""), Options{})
		if err == nil || strings.Contains(err.Error(), "secret") {
			t.Error(err)
		}
	}
	for _, address := range []string{
		"ws://anna:secret@127.0.0.1:1/rooms/a", "ws://anna:secret/a@h/rooms/a",
	} {
		_, err := WebSocket(address)(soon(t))
		if err == nil || strings.Contains(fmt.Sprintf("%+v %v", err, err), "secret") {
			t.Error(err)
		}
		var failed *HandshakeFailed
		if !errors.As(err, &failed) || strings.Contains(failed.URL, "secret") {
			t.Error(failed)
		}
	}
}

func TestANameAndAPasswordAreSent(t *testing.T) {
	named := func(writer http.ResponseWriter, asked *http.Request) {
		name, password, _ := asked.BasicAuth()
		if name != "anna" || password != "sec/ret" {
			writer.WriteHeader(http.StatusUnauthorized)
			return
		}
		writer.WriteHeader(http.StatusTeapot)
	}
	proxy := httptest.NewServer(http.HandlerFunc(named))
	defer proxy.Close()
	host := strings.TrimPrefix(proxy.URL, "http://")
	for user, status := range map[string]int{"anna:sec%2Fret@": 418, "anna:other@": 401, "": 401} {
		_, err := WebSocket("ws://" + user + host + "/rooms/a")(soon(t))
		var failed *HandshakeFailed
		if !errors.As(err, &failed) || failed.Status != status {
			t.Errorf("%q: %v", user, err)
		}
	}
}

func TestA404EndsABoardThatWasNeverInItsRoom(t *testing.T) {
	relay := httptest.NewServer(http.NotFoundHandler())
	defer relay.Close()
	address := "ws" + strings.TrimPrefix(relay.URL, "http") + "/b/rooms/a"
	states := make(chan State, 10)
	options := Options{OnState: func(state State, _ error) { states <- state }}
	board, err := Connect(context.Background(), address, View("/n"), options)
	if err != nil {
		t.Fatal(err)
	}
	defer board.Close()
	_, err = board.Ready(soon(t))
	var failed *HandshakeFailed
	if !errors.As(err, &failed) || failed.Status != 404 {
		t.Fatal(err)
	}
	wanted := "relay: " + address + " refuses the connection, with 404: a room is at " +
		"/rooms/NAME, and this path is /b/rooms/a"
	if err.Error() != wanted || board.Err() != err {
		t.Errorf("%v, and %v", err, board.Err())
	}
	if one, other := <-states, <-states; one != Connecting || other != Closed {
		t.Error(one, other)
	}
}
