package relay

import (
	"fmt"
	"regexp"
	"strconv"
	"strings"
)

var (
	pointers = regexp.MustCompile(`^(/([^~/]|~[01])*)*$`)
	decoding = strings.NewReplacer("~1", "/", "~0", "~")
	encoding = strings.NewReplacer("~", "~0", "/", "~1")
)

// Pointer is the JSON Pointer of these tokens, as Pointer("cards", 0) is /cards/0.
func Pointer(tokens ...any) string {
	var text strings.Builder
	for _, token := range tokens {
		text.WriteString("/" + encoding.Replace(fmt.Sprint(token)))
	}
	return text.String()
}

func pointerOf(path []string) string {
	tokens := make([]any, len(path))
	for i, token := range path {
		tokens[i] = token
	}
	return Pointer(tokens...)
}

func tokens(pointer string) ([]string, error) {
	if !pointers.MatchString(pointer) {
		return nil, fmt.Errorf("relay: no JSON Pointer: %q", pointer)
	}
	path := strings.Split(pointer, "/")[1:]
	for i, token := range path {
		path[i] = decoding.Replace(token)
	}
	return path, nil
}

// index is the place in a list that a token names, if it names one that a list here can have: `0`,
// or digits of which the first is not `0`.
func index(token string) (int, bool) {
	place, err := strconv.Atoi(token)
	return place, err == nil && strconv.Itoa(place) == token && place >= 0
}

// isPlace says whether a path may lead to a place in a list.
func isPlace(path []string) bool {
	if len(path) == 0 {
		return false
	}
	_, isIndex := index(path[len(path)-1])
	return isIndex || isEnd(path)
}

func isEnd(path []string) bool {
	return len(path) > 0 && path[len(path)-1] == "-"
}

func startsWith(path, start []string) bool {
	if len(path) < len(start) {
		return false
	}
	for i, token := range start {
		if path[i] != token {
			return false
		}
	}
	return true
}
